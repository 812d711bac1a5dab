//! Compares what our program `trace` prints with what the documents and the Rust say that it is to print, line
//! by line.

pub mod expected;
mod feed;
mod lines;
mod spoils;
mod tally;

use std::process::exit;

use crate::lower::rust::Builds;
use crate::shared::arguments::Arguments;
use crate::shared::progress::Progress;
use crate::shared::random::Random;
use expected::{Expected, Trace, split};
use feed::feed;
use lines::Lines;
use tally::Tally;

/// The parts in which the runs get their input; 0 is any of up to 99 bytes.
const PARTS: [usize; 9] = [1, 2, 7, 64, 65, 66, 4096, 65536, 0];

/// The lines of document 01, and what they print.
const DOCUMENT: [(&str, &str); 15] = [
    ("I 1000 2 0", "0"),
    ("S", "0 1000 1 0"),
    ("G 0 0", "0 0 1"),
    ("G 3 0", "0 192 1"),
    ("G 8 9", "7 0 2"),
    ("F 0 0", "0"),
    ("F 192 0", "0"),
    ("G 8 9", "0 0 2"),
    ("F 64 6", "0"),
    ("T 64 9", "0 64 0 0"),
    ("G 9 6", "0 576 1"),
    ("F 64 6", "7"),
    ("F 1000 0", "5"),
    ("A", "0 0 0"),
    ("S", "0 488 0 0"),
];

/// What an input ends with, after the last end of a line.
const LASTS: [&str; 6] =
    ["", "S", "G 3 0", "G 3 0 ", "\0", "55555555555555555555555555555555555555555555555555555555555555555"];

/// An input as far as it is written, and what it is to print.
struct Input<'a> {
    trace: Trace<'a>,
    bytes: Vec<u8>,
    expected: String,
}

impl<'a> Input<'a> {
    fn new(rust: &'a Builds, random: &mut Random) -> Input<'a> {
        Input { trace: Trace::new(rust, random), bytes: Vec::new(), expected: String::new() }
    }

    fn line(&mut self, line: &[u8], end: &str) -> Expected {
        self.bytes.extend(line);
        self.bytes.extend(end.as_bytes());
        let expected = self.trace.line(line);
        self.expected += &expected.text;
        self.expected += "\n";
        expected
    }

    /// Writes so many lines and, unless it is empty, a last one that has no end.
    fn lines(&mut self, count: u64, last: &str, tally: &mut Tally, random: &mut Random) {
        let mut source = Lines::new(self.trace.variant(), random);
        for _ in 0..count {
            let (line, spoil) = source.next(random);
            let expected = self.line(&line, "\n");
            tally.add(&expected, spoil, false);
            if let Some((call, outcome, _)) = &expected.call {
                source.saw(call, outcome, random);
            }
        }
        if !last.is_empty() {
            let expected = self.line(last.as_bytes(), "");
            tally.add(&expected, None, true);
        }
    }

    /// Runs the program on it in parts of this size, and hands back the most memory that it had.
    fn compare(&self, program: &[String], part: usize, random: &mut Random) -> u64 {
        let printed = feed(program, &self.bytes, part < 4096, || match part {
            0 => 1 + random.below(99) as usize,
            _ => part,
        });
        if printed.text != self.expected.as_bytes() {
            self.differ(&printed.text, part);
        }
        assert!(printed.well, "trace printed what it is to print, and failed");
        printed.peak
    }

    /// Prints what it takes to see the difference again, and ends the run.
    fn differ(&self, printed: &[u8], part: usize) -> ! {
        let input = split(&self.bytes);
        let (printed, expected) = (split(printed), split(self.expected.as_bytes()));
        let same = printed.iter().zip(&expected).take_while(|(ours, line)| ours == line).count();
        let text = |lines: &[&[u8]]| {
            lines.get(same).map_or("nothing".to_string(), |line| line.escape_ascii().to_string())
        };
        println!("trace: a difference in line {} of {}, in parts of {part}", same + 1, input.len());
        println!("  input: {:.200}", text(&input));
        println!("  ours: {:.200}", text(&printed));
        println!("  the documents and the Rust: {}", text(&expected));
        exit(1);
    }
}

pub fn compare(arguments: Arguments<1>) {
    let Arguments { mut random, amounts: [count], libraries, command: program } = arguments;
    let rust = Builds::load(&libraries);
    let mut tally = Tally::default();
    let mut progress = Progress::new("trace");

    let mut document = Input::new(&rust, &mut random);
    for (line, answer) in DOCUMENT {
        assert_eq!(document.line(line.as_bytes(), "\n").text, answer, "{line}");
    }
    document.compare(&program, 4096, &mut random);
    Input::new(&rust, &mut random).compare(&program, 4096, &mut random);

    // Twenty runs, of which the last two go on to many more parts and lines and a long one: a program that
    // kept any of it would need more memory.
    let mut most = 0;
    for run in 0..18 {
        let mut input = Input::new(&rust, &mut random);
        input.lines(count / 20, LASTS[run % LASTS.len()], &mut tally, &mut random);
        most = most.max(input.compare(&program, PARTS[run % PARTS.len()], &mut random));
        progress.say(run as u64, 20, "runs");
    }
    for (part, long, empty) in [(1, 10 * count, 10 * count), (65536, 1 << 24, 20 * count)] {
        let mut input = Input::new(&rust, &mut random);
        input.lines(count / 20, "", &mut tally, &mut random);
        input.line(&vec![b'7'; long as usize], "\n");
        (0..empty).for_each(|_| drop(input.line(b"", "\n")));
        input.lines(count / 20, "", &mut tally, &mut random);
        let peak = input.compare(&program, part, &mut random);
        assert!(
            0 < peak && peak <= most + 512,
            "trace needs more memory for more input: {peak} KiB after {most}"
        );
    }

    tally.demand_all();
    let [lines, bad, refused, both] = tally.figures();
    println!(
        "trace: {lines} lines, {bad} of them bad, {refused} refused, {both} of them answered by the Rust too, \
         0 differences"
    );
}
