//! Values of each type, by the kind of the type.
mod addresses;
mod arrays;
mod checked;
mod choices;
mod fixed_capacity;
mod floats;
mod heaps;
mod ints;
mod lists;
mod maps;
mod others;
mod pointers;
mod sets;
mod texts;
mod tuples;
