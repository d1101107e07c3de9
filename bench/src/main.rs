//! Our flat calls beside peers. bench/run builds and calls this; docs/BENCHMARKS.md explains what is printed.
//!
//! bench time OUT [NAME=COMMAND..]  checks every peer, prints the table of ratios and what a compare costs, writes OUT/levels and OUT/rows.svg
//! bench count                      one call each, for callgrind
//! bench counts OUT                 prints the table of instruction counts from callgrind's dumps

mod check;
mod compare;
mod counts;
mod inputs;
mod outside;
mod peers;
mod picture;
#[cfg(before)]
mod placed;
mod scaling;
mod table;
mod timing;

use std::path::Path;

fn main() {
    let words: Vec<String> = std::env::args().skip(1).collect();
    let words: Vec<&str> = words.iter().map(String::as_str).collect();
    match words.as_slice() {
        ["time", out, others @ ..] => time(Path::new(out), others),
        ["count"] => counts::make(),
        ["counts", out] => counts::print(Path::new(out)),
        _ => panic!("bench time OUT [NAME=COMMAND..] | bench count | bench counts OUT"),
    }
}

fn time(out: &Path, others: &[&str]) {
    let cases = inputs::all();
    check::all(&cases);
    let mut others = outside::start_all(others);
    timing::print(&cases, &mut others, out);
    if std::env::var("ONLY").is_ok() {
        return;
    }
    compare::print();
    picture::write(&scaling::measure(), &out.join("rows.svg"));
}
