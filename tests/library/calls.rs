//! Each public call once: whole calls, coders used by themselves, chunks, sealed bytes, and the second format.
mod chunks;
mod limits;
mod once;
mod sealed;
mod serde;
mod serde_floats;
mod serde_types;
mod strict_calls;
