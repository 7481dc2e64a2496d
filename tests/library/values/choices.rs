//! Options and results hold what they are made of. `scripts/checks/vectors.sh` compares theirs with those of the Rust
//! crate.
use bitcode::DecodeOwned;

/// Takes a type whose values borrow nothing.
fn is_owned<T: DecodeOwned>() {}

#[test]
fn choices_are_owned() {
    is_owned::<Option<u8>>();
    is_owned::<Result<u8, bool>>();
}
