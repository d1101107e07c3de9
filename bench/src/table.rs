//! Plain text tables: the first column to the left, the others to the right.

pub fn print(rows: &[Vec<String>]) {
    let columns = rows.iter().map(Vec::len).max().unwrap_or(0);
    let width = |c: usize| rows.iter().filter_map(|row| row.get(c)).map(String::len).max().unwrap_or(0);
    let widths: Vec<usize> = (0..columns).map(width).collect();
    for row in rows {
        let cell = |(c, text): (usize, &String)| if c == 0 { format!("{text:<w$}", w = widths[c]) } else { format!("{text:>w$}", w = widths[c]) };
        let line: Vec<String> = row.iter().enumerate().map(cell).collect();
        println!("{}", line.join("  ").trim_end());
    }
}
