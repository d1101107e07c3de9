//! The picture of time against rows: both axes by powers, names at the ends of their lines.

use crate::scaling::Line;
use std::fmt::Write;
use std::path::Path;

const WIDTH: f64 = 900.0;
const HEIGHT: f64 = 560.0;
const LEFT: f64 = 80.0;
const RIGHT: f64 = 720.0;
const TOP: f64 = 50.0;
const BOTTOM: f64 = 500.0;
/// Names stand at least so far from each other.
const NAME_GAP: f64 = 17.0;
/// Told apart without colour too: each line has its own dashes.
const STYLES: [(&str, &str); 7] =
    [("#b2182b", ""), ("#2166ac", ""), ("#4d4d4d", ""), ("#b2182b", "7 4"), ("#2166ac", "7 4"), ("#4d4d4d", "7 4"), ("#1b7837", "2 3")];

/// Whole powers of ten around all times.
struct Scale {
    low: f64,
    high: f64,
}

impl Scale {
    fn of(lines: &[Line]) -> Self {
        let logs: Vec<f64> = lines.iter().flat_map(|line| &line.points).map(|(_, time)| time.log10()).collect();
        let low = logs.iter().copied().fold(f64::MAX, f64::min).floor();
        let high = logs.iter().copied().fold(f64::MIN, f64::max).ceil();
        Scale { low, high }
    }

    fn y(&self, time: f64) -> f64 {
        BOTTOM - (time.log10() - self.low) / (self.high - self.low) * (BOTTOM - TOP)
    }
}

fn x(rows: usize) -> f64 {
    LEFT + (rows as f64).log2() / 10.0 * (RIGHT - LEFT)
}

fn text(svg: &mut String, x: f64, y: f64, anchor: &str, words: &str) {
    writeln!(svg, r#"<text x="{x:.1}" y="{y:.1}" text-anchor="{anchor}">{words}</text>"#).expect("text");
}

fn rule(svg: &mut String, x1: f64, y1: f64, x2: f64, y2: f64) {
    writeln!(svg, r##"<line x1="{x1:.1}" y1="{y1:.1}" x2="{x2:.1}" y2="{y2:.1}" stroke="#dddddd"/>"##).expect("text");
}

fn time_name(power: f64) -> String {
    let (unit, down) = if power < 3.0 {
        ("ns", 0.0)
    } else if power < 6.0 {
        ("us", 3.0)
    } else {
        ("ms", 6.0)
    };
    format!("{} {unit}", 10f64.powf(power - down).round())
}

fn axes(svg: &mut String, scale: &Scale) {
    for power in scale.low as i32..=scale.high as i32 {
        let y = scale.y(10f64.powi(power));
        rule(svg, LEFT, y, RIGHT, y);
        text(svg, LEFT - 8.0, y + 4.0, "end", &time_name(f64::from(power)));
    }
    for rows in (0..=10).map(|power| 1 << power) {
        rule(svg, x(rows), TOP, x(rows), BOTTOM);
        text(svg, x(rows), BOTTOM + 18.0, "middle", &rows.to_string());
    }
    text(svg, (LEFT + RIGHT) / 2.0, BOTTOM + 40.0, "middle", "rows (five wishes, levels 0 to 7, uniform)");
    text(svg, LEFT, TOP - 20.0, "start", "time of one call, stream to marks");
}

/// Where the names go: at the ends of their lines, moved down where they would meet.
fn name_places(lines: &[Line], scale: &Scale) -> Vec<f64> {
    let end = |i: &usize| scale.y(lines[*i].points.last().expect("points").1);
    let mut order: Vec<usize> = (0..lines.len()).collect();
    order.sort_by(|a, b| end(a).total_cmp(&end(b)));
    let mut places = vec![0.0; lines.len()];
    let mut next = f64::MIN;
    for i in order {
        places[i] = end(&i).max(next);
        next = places[i] + NAME_GAP;
    }
    places
}

fn line(svg: &mut String, line: &Line, scale: &Scale, style: (&str, &str), name_y: f64) {
    let points: Vec<String> = line.points.iter().map(|(rows, time)| format!("{:.1},{:.1}", x(*rows), scale.y(*time))).collect();
    let (colour, dashes) = style;
    let width = if line.ours { 3 } else { 2 };
    let points = points.join(" ");
    writeln!(svg, r#"<polyline points="{points}" fill="none" stroke="{colour}" stroke-width="{width}" stroke-dasharray="{dashes}"/>"#).expect("text");
    let last = scale.y(line.points.last().expect("points").1);
    writeln!(svg, r#"<line x1="{RIGHT}" y1="{last:.1}" x2="{}" y2="{name_y:.1}" stroke="{colour}"/>"#, RIGHT + 14.0).expect("text");
    writeln!(svg, r#"<text x="{}" y="{:.1}" fill="{colour}">{}</text>"#, RIGHT + 18.0, name_y + 4.0, line.name).expect("text");
}

pub fn write(lines: &[Line], file: &Path) {
    let scale = Scale::of(lines);
    let mut svg = format!(r#"<svg xmlns="http://www.w3.org/2000/svg" viewBox="0 0 {WIDTH} {HEIGHT}" font-family="sans-serif" font-size="13">"#);
    svg.push_str("\n<rect width=\"100%\" height=\"100%\" fill=\"white\"/>\n");
    axes(&mut svg, &scale);
    let places = name_places(lines, &scale);
    for (i, of) in lines.iter().enumerate() {
        line(&mut svg, of, &scale, STYLES[i % STYLES.len()], places[i]);
    }
    svg.push_str("</svg>\n");
    std::fs::write(file, svg).expect("a picture");
    println!();
    println!("picture of time against rows: {}", file.display());
}
