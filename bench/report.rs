//! Prints the tables of what bench.rs, lower.rs, why.rs and staff.rs measured, and draws the ratios as a picture.
//! Run by bench/run, as: report PICTURE TITLE ROWS TITLE ROWS..
//!
//! A file of rows has those of several processes; each side's figure is its least.

use std::env;
use std::fmt::Write;
use std::fs;

const AIM: f64 = 1.05;

/// A row's words are its call, T, order, state and found; see turns.rs.
struct Row {
    words: Vec<String>,
    ours: f64,
    rust: Option<f64>,
}

impl Row {
    fn of(line: &str) -> Row {
        let mut words: Vec<String> = line.split('\t').map(str::to_string).collect();
        let rust = words.pop().unwrap();
        let ours = words.pop().unwrap().parse().unwrap();
        Row { words, ours, rust: (rust != "-").then(|| rust.parse().unwrap()) }
    }

    /// To two digits, as it is shown.
    fn ratio(&self) -> Option<f64> {
        self.rust.map(|rust| (100.0 * self.ours / rust).round() / 100.0)
    }

    /// What its bar is of, beside its call.
    fn label(&self) -> String {
        let [_, t, order, state, _] = &self.words[..] else { unreachable!() };
        let mut label = String::new();
        for (name, number) in [("T = ", t), ("order ", order)] {
            if !number.is_empty() {
                label += &format!("{name}{number}, ");
            }
        }
        label + state
    }
}

/// The rows of a file, in the order of their first appearance.
fn rows(path: &str) -> Vec<Row> {
    let mut rows: Vec<Row> = Vec::new();
    for row in fs::read_to_string(path).unwrap().lines().map(Row::of) {
        match rows.iter_mut().find(|other| other.words == row.words) {
            None => rows.push(row),
            Some(other) => {
                other.ours = other.ours.min(row.ours);
                other.rust = other.rust.map(|rust| rust.min(row.rust.unwrap()));
            }
        }
    }
    rows
}

/// Three digits or more.
fn figure(time: f64) -> String {
    let digits = if time < 10.0 { 2 } else { (time < 100.0) as usize };
    format!("{time:.digits$}")
}

/// A table of the columns in which a row has something.
fn table(rows: &[Row]) -> String {
    let used: Vec<usize> =
        (0..5).filter(|word| rows.iter().any(|row| !row.words[*word].is_empty())).collect();
    let cells = |words: [&str; 5], figures: [&str; 3]| {
        let words = used.iter().map(|word| words[*word]);
        format!("| {} |\n", words.chain(figures).collect::<Vec<_>>().join(" | "))
    };
    let mut table = cells(["call", "T", "order", "state", "found"], ["ours, ns", "Rust, ns", "ratio"]);
    table += &"|---".repeat(used.len() + 3);
    table += "|\n";
    for row in rows {
        let figures = match row.ratio() {
            Some(ratio) => [figure(row.ours), figure(row.rust.unwrap()), format!("{ratio:.2}")],
            None => [figure(row.ours), "-".to_string(), "-".to_string()],
        };
        table += &cells(
            [0, 1, 2, 3, 4].map(|word| &row.words[word][..]),
            figures.each_ref().map(|figure| &figure[..]),
        );
    }
    table
}

// ---- The picture: two columns of bars, over a ground of its own, so that it can be read on any page.

const WIDTH: f64 = 1000.0;
const MARGIN: f64 = 16.0;
const COLUMN: f64 = (WIDTH - 3.0 * MARGIN) / 2.0;
/// Where the bars of a column begin, and how long one of the greatest ratio is.
const BARS: f64 = 246.0;
const LONGEST: f64 = COLUMN - BARS - 38.0;
/// A longer bar is cut, and its figure tells.
const GREATEST: f64 = 2.0;
const HEAD: f64 = 84.0;
const LINE: f64 = 14.0;

const STYLE: &str = "\
text { font: 11px sans-serif; fill: #1f2328 }
.title { font-size: 15px; font-weight: bold }
.part { font-size: 13px; font-weight: bold }
.call { font-weight: bold }
.end { text-anchor: end }
.ground { fill: #ffffff }
.within { fill: #2f7fb8 }
.over { fill: #d9731a }
.even { stroke: #1f2328; stroke-width: 1 }
.aim { stroke: #c0262d; stroke-width: 1; stroke-dasharray: 3 2 }
@media (prefers-color-scheme: dark) {
text { fill: #e6edf3 }
.ground { fill: #0d1117 }
.within { fill: #4f9fd8 }
.over { fill: #f0913a }
.even { stroke: #e6edf3 }
.aim { stroke: #ff7b72 }
}
";

/// The bars of one call in one part.
struct Group<'a> {
    part: &'a str,
    call: &'a str,
    rows: Vec<&'a Row>,
}

fn groups(parts: &[(String, Vec<Row>)]) -> Vec<Group<'_>> {
    let mut groups: Vec<Group> = Vec::new();
    for (part, rows) in parts {
        for row in rows.iter().filter(|row| row.rust.is_some()) {
            let call = &row.words[0];
            match groups.iter_mut().find(|group| group.part == part && group.call == call) {
                None => groups.push(Group { part, call, rows: vec![row] }),
                Some(group) => group.rows.push(row),
            }
        }
    }
    groups
}

/// What stands in a column, from its top on.
enum Item<'a> {
    Part(&'a str),
    Call(&'a str),
    Bar(&'a Row),
}

impl Item<'_> {
    fn height(&self) -> f64 {
        match self {
            Item::Part(_) => 28.0,
            Item::Call(_) => 20.0,
            Item::Bar(_) => LINE,
        }
    }
}

fn column<'a>(groups: &[Group<'a>]) -> Vec<Item<'a>> {
    let mut items = Vec::new();
    let mut part = "";
    for group in groups {
        if group.part != part {
            part = group.part;
            items.push(Item::Part(part));
        }
        items.push(Item::Call(group.call));
        items.extend(group.rows.iter().map(|row| Item::Bar(row)));
    }
    items
}

fn height(items: &[Item]) -> f64 {
    items.iter().map(Item::height).sum()
}

/// The groups in two columns, cut where the picture is lowest.
fn columns<'a>(groups: &[Group<'a>]) -> [Vec<Item<'a>>; 2] {
    let cuts = (1..groups.len()).map(|cut| [column(&groups[..cut]), column(&groups[cut..])]);
    let tallest = |columns: &[Vec<Item>; 2]| height(&columns[0]).max(height(&columns[1]));
    cuts.min_by(|one, other| tallest(one).total_cmp(&tallest(other))).expect("two calls were timed")
}

fn place(ratio: f64) -> f64 {
    BARS + LONGEST * ratio.min(GREATEST) / GREATEST
}

fn picture(parts: &[(String, Vec<Row>)]) -> String {
    let columns = columns(&groups(parts));
    let end = HEAD + height(&columns[0]).max(height(&columns[1])) + MARGIN;
    let mut svg = format!(
        "<svg xmlns=\"http://www.w3.org/2000/svg\" viewBox=\"0 0 {WIDTH} {end}\" width=\"{WIDTH}\" height=\"{end}\">\n\
         <style>\n{STYLE}</style>\n\
         <rect class=\"ground\" width=\"{WIDTH}\" height=\"{end}\" rx=\"6\"/>\n\
         <text class=\"title\" x=\"{MARGIN}\" y=\"26\">Our time as a share of the Rust's, call by call</text>\n\
         <text x=\"{MARGIN}\" y=\"44\">Shorter is better. The whole line is 1.0, the Rust's own time; the broken \
         one is {AIM}, the aim. Above the aim a bar is orange; above {GREATEST:.0} it is cut.</text>\n\
         <text x=\"{MARGIN}\" y=\"60\">The least of many passes on each side, taken in turn. Calls that the Rust \
         does not have are left out.</text>\n",
    );
    for (column, items) in columns.iter().enumerate() {
        writeln!(svg, "<g transform=\"translate({} 0)\">", MARGIN + column as f64 * (COLUMN + MARGIN))
            .unwrap();
        let mut y = HEAD;
        for item in items {
            y += item.height();
            let base = y - 4.0;
            match item {
                Item::Part(title) => {
                    writeln!(svg, "<text class=\"part\" x=\"0\" y=\"{base}\">{title}</text>")
                }
                Item::Call(name) => {
                    writeln!(svg, "<text class=\"call\" x=\"0\" y=\"{base}\">{name}</text>")
                }
                Item::Bar(row) => {
                    let ratio = row.ratio().unwrap();
                    let class = if ratio > AIM { "over" } else { "within" };
                    writeln!(
                        svg,
                        "<text class=\"end\" x=\"{}\" y=\"{base}\">{}</text>\
                         <rect class=\"{class}\" x=\"{BARS}\" y=\"{}\" width=\"{:.1}\" height=\"{}\"/>\
                         <text class=\"end\" x=\"{COLUMN}\" y=\"{base}\">{ratio:.2}</text>",
                        BARS - 6.0,
                        row.label(),
                        y - LINE + 2.0,
                        place(ratio) - BARS,
                        LINE - 3.0,
                    )
                }
            }
            .unwrap();
        }
        for (class, ratio, anchor) in [("even", 1.0, "end"), ("aim", AIM, "start")] {
            let x = place(ratio);
            writeln!(
                svg,
                "<line class=\"{class}\" x1=\"{x:.1}\" y1=\"{HEAD}\" x2=\"{x:.1}\" y2=\"{y}\"/>\
                 <text class=\"{anchor}\" x=\"{x:.1}\" y=\"{}\">{ratio:?}</text>",
                HEAD - 4.0,
            )
            .unwrap();
        }
        svg += "</g>\n";
    }
    svg + "</svg>\n"
}

fn main() {
    let words: Vec<String> = env::args().skip(1).collect();
    let [path, files @ ..] = &words[..] else { panic!("report PICTURE TITLE ROWS..") };
    let parts: Vec<(String, Vec<Row>)> =
        files.chunks(2).map(|part| (part[0].clone(), rows(&part[1]))).collect();
    for (title, rows) in &parts {
        print!("\n## {title}\n\n{}", table(rows));
    }
    fs::write(path, picture(&parts)).unwrap();
}
