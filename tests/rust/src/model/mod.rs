//! Document 01 and orders 1 and 2 of document 02 in plain Rust, written apart from the product and from the documents alone: what every
//! call and program has to answer. It is made to be read beside the documents, not to be fast.

pub mod best;
pub mod flat;
pub mod lattice;
pub mod levels;
pub mod machine;
pub mod reader;
pub mod sheet;
