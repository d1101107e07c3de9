//! The model's text in the place of the program `shortlist`.

#[path = "../src/model/mod.rs"]
#[allow(dead_code)]
mod model;

use std::io::{Read, Write};

fn main() {
    let mut stream = vec![];
    std::io::stdin().read_to_end(&mut stream).expect("input");
    std::io::stdout().write_all(model::flat::program(&stream).as_bytes()).expect("output");
}
