//! Ways to make a good line of `trace` bad. Some leave it good now and then.

use crate::shared::random::Random;

/// What is wrong, and a line with that, made of a good one.
pub type Spoil = (&'static str, fn(&str, &mut Random) -> Vec<u8>);

pub const SPOILS: [Spoil; 22] = [
    ("empty", |_, _| Vec::new()),
    ("longer than 64 bytes", |good, random| {
        let length = random.one_of(&[65, 66, 67, 127, 128, 129, 500, 5000, 70_000]);
        filled(good, length, random)
    }),
    ("filled to 64 bytes", |good, random| filled(good, 64, random)),
    ("a NUL", |good, random| with_byte(good, 0, random)),
    ("a byte from 128 on", |good, random| {
        let byte = 128 | random.word() as u8;
        with_byte(good, byte, random)
    }),
    ("a CR at the end", |good, _| format!("{good}\r").into()),
    ("a tab for a space", |good, _| with_space(good, "\t")),
    ("two spaces", |good, _| with_space(good, "  ")),
    ("a space at the end", |good, _| format!("{good} ").into()),
    ("a space before the letter", |good, _| format!(" {good}").into()),
    ("a leading zero", |good, _| with_space(good, " 0")),
    ("a number from 2^64 on", |good, random| {
        let high = random.one_of(&HIGH);
        with_field(good, high, random)
    }),
    ("a sign", |good, random| {
        let (sign, number) = (random.one_of(&["+", "-"]), random.below(1000));
        with_field(good, &format!("{sign}{number}"), random)
    }),
    ("a number with what is no digit", |good, random| {
        let odd = random.one_of(&["/", ":", ".", ",", "_", "x", "a", "e", "A", "F", "\u{b}", "\u{663}"]);
        let (before, after) = (random.below(100), random.below(100));
        let field = random.one_of(&[0, 1, 2]);
        let field = [format!("{before}{odd}"), format!("{odd}{after}"), format!("{before}{odd}{after}")]
            [field]
            .clone();
        with_field(good, &field, random)
    }),
    ("another m", |_, random| {
        let m = random.one_of(&["2", "3", "9", "10", "11", "256", "4294967296", "18446744073709551615"]);
        let frames = random.one_of(&["1000", "0", "262145", "1048577"]);
        format!("I {frames}{} {m}", random.one_of(&["", " 2", " 3"])).into()
    }),
    ("another letter", |good, random| [&any_bytes(1, random), &good.as_bytes()[1..]].concat()),
    ("two letters", |good, _| format!("{}{good}", &good[..1]).into()),
    ("a letter alone", |good, _| good[..1].into()),
    ("no letter", |good, _| good[1..].into()),
    ("a field less", |good, _| good.rsplit_once(' ').map_or(Vec::new(), |(fields, _)| fields.into())),
    ("a field more", |good, random| format!("{good} {}", random.below(3)).into()),
    ("any bytes", |_, random| {
        let length = random.below(70);
        any_bytes(length, random)
    }),
];

/// Numbers from 2^64 on, of which some are small once they wrap.
const HIGH: [&str; 7] = [
    "18446744073709551616",
    "18446744073709551617",
    "18446744073709551625",
    "20000000000000000000",
    "99999999999999999999",
    "184467440737095516160",
    "340282366920938463463374607431768211456",
];

fn filled(good: &str, length: usize, random: &mut Random) -> Vec<u8> {
    let filler = random.one_of(&["0", "7", " ", "G"]);
    (good.to_string() + &filler.repeat(length - good.len())).into()
}

/// Any bytes but the end of a line.
fn any_bytes(length: u64, random: &mut Random) -> Vec<u8> {
    (0..length).map(|_| random.word() as u8).map(|byte| if byte == b'\n' { b'\r' } else { byte }).collect()
}

fn with_byte(good: &str, byte: u8, random: &mut Random) -> Vec<u8> {
    let mut bytes = good.as_bytes().to_vec();
    bytes.insert(random.below(bytes.len() as u64 + 1) as usize, byte);
    bytes
}

/// The line with its first space replaced, or with that at its end if it has none.
fn with_space(good: &str, space: &str) -> Vec<u8> {
    if good.contains(' ') { good.replacen(' ', space, 1) } else { good.to_string() + space }.into()
}

/// The line with one of its fields replaced, or with one more if it has none.
pub fn with_field(good: &str, field: &str, random: &mut Random) -> Vec<u8> {
    let mut words: Vec<&str> = good.split(' ').collect();
    if words.len() == 1 {
        words.push(field);
    }
    let at = 1 + random.below(words.len() as u64 - 1) as usize;
    words[at] = field;
    words.join(" ").into()
}
