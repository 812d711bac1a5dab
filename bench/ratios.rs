//! Prints the table of what pair.rs measured at several places of the code in memory. Run by bench/pair, as:
//! ratios ROWS.., with a file for each place.
//!
//! A file has the rows of several processes. A build's time at a place is the mean over the chunks of the least of all
//! processes. The table has the mean over the places, of the times and of their ratios.

use std::{env, fs};

/// A row's words, and the times of its chunks, before and after.
struct Row {
    words: Vec<String>,
    times: Vec<f64>,
}

impl Row {
    fn of(line: &str) -> Row {
        let mut words: Vec<String> = line.split('\t').map(str::to_string).collect();
        let times = words.split_off(6).iter().map(|time| time.parse().unwrap()).collect();
        Row { words, times }
    }

    /// The time before, and after.
    fn sides(&self) -> [f64; 2] {
        let (before, after) = self.times.split_at(self.times.len() / 2);
        [mean(before), mean(after)]
    }
}

fn mean(figures: &[f64]) -> f64 {
    figures.iter().sum::<f64>() / figures.len() as f64
}

/// The rows of a file, each once.
fn rows(path: &str) -> Vec<Row> {
    let mut rows: Vec<Row> = Vec::new();
    for row in fs::read_to_string(path).unwrap().lines().map(Row::of) {
        match rows.iter_mut().find(|other| other.words == row.words) {
            None => rows.push(row),
            Some(other) => {
                other.times.iter_mut().zip(row.times).for_each(|(least, time)| *least = least.min(time))
            }
        }
    }
    rows
}

fn main() {
    let places: Vec<Vec<Row>> = env::args().skip(1).map(|path| rows(&path)).collect();
    let sides = "before, ns | after, ns | ratio | least and greatest of the four places";
    println!("| call | T | order | state | from | answers | {sides} |");
    println!("{}|", "|---".repeat(10));
    for (i, row) in places[0].iter().enumerate() {
        assert!(places.iter().all(|rows| rows[i].words == row.words), "the places have different rows");
        let sides: Vec<[f64; 2]> = places.iter().map(|rows| rows[i].sides()).collect();
        let [before, after] =
            [0, 1].map(|side| mean(&sides.iter().map(|sides| sides[side]).collect::<Vec<_>>()));
        let mut ratios: Vec<f64> = sides.iter().map(|[before, after]| after / before).collect();
        ratios.sort_by(f64::total_cmp);
        println!(
            "| {} | {before:.2} | {after:.2} | {:.3} | {:.3} to {:.3} |",
            row.words.join(" | "),
            mean(&ratios),
            ratios[0],
            ratios[ratios.len() - 1],
        );
    }
}
