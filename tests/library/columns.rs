//! Columns of each kind, written, read and refused.
mod bytes;
mod coder_calls;
mod fronts;
mod int_columns;
mod length_columns;
mod limits;
mod packing;
mod tags;
mod variants;
