//! Tests of the flat calls and of the programs from outside: streams, a model of the documents written apart, and how the two are compared.

pub mod calls;
pub mod compare;
pub mod damage;
pub mod generate;
pub mod model;
pub mod programs;
pub mod random;
pub mod records;
pub mod spread;
