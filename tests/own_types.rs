//! User-defined types: values of each type of `bitcode_own_types`, lists of them, and the calls of
//! `bitcode_large_types`.
mod each_type;
mod lists_of_enums;
mod lists_of_structs;
mod nested_calls;
