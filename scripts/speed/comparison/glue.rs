
/// What the derive of this crate stands on, for scripts/speed/comparison/sets.rs.
#[doc(hidden)]
pub mod glue {
    pub use super::variant::{VariantDecoder, VariantEncoder};
    pub use crate::coder::{Buffer as Columns, Decoder, Encoder, Result, View};
}
