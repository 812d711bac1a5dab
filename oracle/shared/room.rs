//! The memory that calls are on: rows and entries, and what lies on either side of the lent ones. And what a
//! call does, to it and else.

use crate::shared::random::Random;

/// Rows and entries, each with one before what is lent and two or more after what is needed, which no call
/// may touch. They lie in words of 64 bits, the entries four to a word, as worker.c has them.
#[derive(Clone, PartialEq)]
pub struct Room {
    words: Vec<u64>,
    rows: usize,
}

/// A word of a room that a call changed: its place, and the new word.
pub type Change = (u64, u64);

/// What a call answered (its code, and the numbers that it was lent), and what it changed.
#[derive(Clone, PartialEq)]
pub struct Outcome {
    pub code: u64,
    pub numbers: Vec<u64>,
    pub changes: Vec<Change>,
}

impl Room {
    /// These rows, of which the first and the last are not to be lent; and no entry that is.
    pub fn of_rows(rows: &[u64]) -> Room {
        Room { words: [rows, &[0]].concat(), rows: rows.len() }
    }

    /// Room for so many rows and entries, filled with anything.
    pub fn new((rows, entries): (u64, u64), random: &mut Random) -> Room {
        let rows = rows as usize + 3;
        let words = rows + (entries as usize + 3).div_ceil(4);
        Room { words: (0..words).map(|_| random.word()).collect(), rows }
    }

    pub fn words(&self) -> &[u64] {
        &self.words
    }

    pub fn row_words(&self) -> u64 {
        self.rows as u64
    }

    /// All rows and all entries, of which those from number 1 on can be lent.
    fn all(&mut self) -> (&mut [u64], &mut [u16]) {
        let (rows, entries) = self.words.split_at_mut(self.rows);
        // Numbers of 64 bits are aligned as those of 16, and four of these take the place of one.
        let entries =
            unsafe { std::slice::from_raw_parts_mut(entries.as_mut_ptr().cast(), 4 * entries.len()) };
        (rows, entries)
    }

    /// So many rows and entries, lent.
    pub fn lent(&mut self, rows: u64, entries: u64) -> (&mut [u64], &mut [u16]) {
        let (all_rows, all_entries) = self.all();
        (&mut all_rows[1..][..rows as usize], &mut all_entries[1..][..entries as usize])
    }

    pub fn changes(&self, after: &Room) -> Vec<Change> {
        let both = self.words.iter().zip(&after.words).enumerate();
        both.filter(|(_, (old, new))| old != new).map(|(at, (_, new))| (at as u64, *new)).collect()
    }

    pub fn change(&mut self, changes: &[Change]) {
        changes.iter().for_each(|(at, word)| self.words[*at as usize] = *word);
    }

    /// How many entries, and how many huge frames of so many rows, the changes leave different.
    pub fn differing(&self, changes: &[Change], huge_rows: u64) -> [u64; 2] {
        let (mut before, mut after) = (self.clone(), self.clone());
        after.change(changes);
        let ((old_rows, old_entries), (rows, entries)) = (before.all(), after.all());
        let entries = entries.iter().zip(old_entries).filter(|(new, old)| new != old);
        let [rows, old_rows] = [rows, old_rows].map(|rows| rows[1..].chunks(huge_rows as usize));
        let bitfields = rows.zip(old_rows).filter(|(new, old)| new != old);
        [entries.count() as u64, bitfields.count() as u64]
    }

    /// So many rows and entries that are lent, with equal numbers that follow each other counted.
    pub fn print(&self, (rows, entries): (u64, u64)) -> String {
        fn text<T: PartialEq>(name: &str, list: &[T], print: impl Fn(&T) -> String) -> String {
            let parts = list.chunk_by(|one, next| one == next).map(|equal| match equal.len() {
                1 => format!(" {}", print(&equal[0])),
                times => format!(" {times}x{}", print(&equal[0])),
            });
            format!("{name}:{}", parts.collect::<String>())
        }
        let mut copy = self.clone();
        let (rows, entries) = copy.lent(rows, entries);
        let rows = text("rows", rows, |row| format!("{row:#x}"));
        format!("{rows}\n    {}", text("entries", entries, |entry| entry.to_string()))
    }

    /// The changes by the numbers of rows and entries; those beyond the lent ones are said to be so.
    pub fn print_changes(&self, (lent_rows, lent_entries): (u64, u64), changes: &[Change]) -> String {
        let (mut before, mut after) = (self.clone(), self.clone());
        after.change(changes);
        let mut text = String::new();
        let mut say = |name: &str, at: usize, lent: u64, new: String| {
            let whose = if (1..=lent).contains(&(at as u64)) { "" } else { " (not lent)" };
            text += &format!("\n    {name} {}{whose} now {new}", at as i64 - 1);
        };
        let ((old_rows, old_entries), (rows, entries)) = (before.all(), after.all());
        for at in (0..rows.len()).filter(|at| rows[*at] != old_rows[*at]) {
            say("row", at, lent_rows, format!("{:#x}", rows[at]));
        }
        for at in (0..entries.len()).filter(|at| entries[*at] != old_entries[*at]) {
            say("entry", at, lent_entries, entries[at].to_string());
        }
        text
    }
}
