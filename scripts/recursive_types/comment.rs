/// A comment and its replies.
pub struct Comment<'a> {
    pub text: &'a str,
    pub replies: Vec<Comment<'a>>,
}
