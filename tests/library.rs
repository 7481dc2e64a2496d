//! The library: each public call, single columns, and values of each type.
mod calls;
mod columns;
mod schemas;
mod types_and_schemas;
mod values;
mod values_by_schema;
