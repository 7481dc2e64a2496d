/// An expression.
pub enum Expr {
    Num(i64),
    Neg(Box<Expr>),
    Add(Box<Expr>, Box<Expr>),
    Call(String, Vec<Expr>),
    Bind(BTreeMap<String, Expr>, Box<Expr>),
}
