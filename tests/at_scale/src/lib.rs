//! What the comparison and the benchmark share: the library's types as those of the plain program, and back.

pub mod library;
