//! Values for the writers of setpoints and pages to write them over, words that spell no number, and words that the
//! program does not have.

use super::pages::{bad_body, good, page, word_for, Trial};
use super::rng::Rng;
use super::words::with_long_words;
use crate::model::setpoint::{length_of, DEGREES, PAGE, TENTHS};

/// A page to be written, and read back.
pub struct Written {
    pub kind: u16,
    pub value: String,
    /// The setpoint that the readers must give then.
    pub tenths: i32,
    pub page: Vec<u8>,
}

/// Lengths of a word around which a buffer might end.
const LENGTHS: [usize; 36] = [
    16, 17, 31, 32, 33, 63, 64, 65, 127, 128, 129, 255, 256, 257, 511, 512, 513, 1023, 1024, 1025,
    4095, 4096, 4097, 8191, 8192, 8193, 16_383, 16_384, 16_385, 32_767, 32_768, 65_535, 65_536,
    65_537, 100_002, 131_000,
];
/// How many digits numbers past every type have.
const DIGITS: [usize; 7] = [18, 19, 20, 40, 100, 1000, 100_000];
/// Widths of a type at which a number might wrap.
const WIDTHS: [u32; 5] = [8, 16, 32, 64, 128];
/// Values that are out of range to both writers, or to one of them.
const OTHERS: [&str; 26] = [
    "0",
    "-0",
    "00",
    "-000",
    "1",
    "-1",
    "18",
    "21",
    "27",
    "35",
    "-35",
    "100",
    "149",
    "180",
    "210",
    "-210",
    "270",
    "350",
    "1800",
    "2100",
    "99999999999",
    "-99999999999",
    // Ten times these is in range by its low 16, 32 and 64 bits.
    "6564",
    "6575",
    "429496751",
    "1844674407370955183",
];

/// The ways to fill a page before it is written.
const FILLINGS: usize = 8;

/// A power of two and a small number more or less, or the same below 0.
fn near_power(bits: u32, more: i128, below: bool) -> String {
    if bits < 127 {
        let number = (1i128 << bits) + more;
        return if below { -number } else { number }.to_string();
    }
    // The last digits of 2^127 and 2^128, which a small number does not carry past.
    let (front, last) = match bits {
        127 => ("170141183460469231731687303715884", 105_728),
        _ => ("340282366920938463463374607431768", 211_456),
    };
    let sign = if below { "-" } else { "" };
    format!("{sign}{front}{}", last + more)
}

/// Values that a writer refuses, around its ends and past every type, and some that it takes.
fn values(kind: u16) -> Vec<String> {
    let (first, last) = if kind == DEGREES {
        (10, 35)
    } else {
        (180, 270)
    };
    let near = (first - 10..first).chain(last + 1..=last + 10);
    let mut all: Vec<String> = near.map(|value| format!("{value}")).collect();
    all.extend([first, last, first + 9].map(|value| format!("-{value}")));
    all.extend(OTHERS.map(String::from));
    for bits in WIDTHS {
        for below in [false, true] {
            let near = [0, first - 1, first, first + 5, last, last + 1];
            for more in near.into_iter().chain([-1, 1, -first, -first - 5, -last]) {
                all.push(near_power(bits, more, below));
            }
            for more in [-1, 0, 1] {
                all.push(near_power(bits - 1, more, below));
            }
        }
    }
    for digits in DIGITS {
        // A power of ten has so many twos that most types lose it.
        let tail = format!("1{}", padded(first + 5, digits - 1));
        for number in ["9".repeat(digits), tail] {
            all.extend([format!("-{number}"), number]);
        }
    }
    all
}

/// A number with zeros before it, so many characters in all.
fn padded(value: i128, length: usize) -> String {
    let value = value.to_string();
    "0".repeat(length.saturating_sub(value.len())) + &value
}

/// Values in range with zeros before them.
fn spellings(kind: u16) -> Vec<String> {
    let (first, last) = if kind == DEGREES {
        (10, 35)
    } else {
        (180, 270)
    };
    let lengths = [3, 4, 5].into_iter().chain(LENGTHS);
    let value = |length: usize| first + length as i128 * 7 % (last - first + 1);
    lengths
        .map(|length| padded(value(length), length + 1))
        .collect()
}

/// A page as a writer may find it.
fn found(rng: &mut Rng, filling: usize) -> Vec<u8> {
    match filling {
        0 => vec![0xFF; PAGE],
        1 => vec![0; PAGE],
        2 => good(rng, DEGREES),
        3 => good(rng, TENTHS),
        4 => {
            let kind = rng.pick(&[DEGREES, TENTHS]);
            let body = bad_body(rng, kind);
            page(rng, length_of(kind), kind, &body)
        }
        5 => {
            let kind = rng.pick(&[DEGREES, TENTHS]);
            let length = rng.pick(&[0, 2, 5, 0x0103, 0x0400]);
            page(rng, length, kind, &[25])
        }
        6 => page(rng, 10, 1, &[0x43, 1, 2, 3]),
        _ => (0..PAGE).map(|_| rng.byte()).collect(),
    }
}

/// Values around the ends, past every type and with zeros before them, to both writers.
pub fn given_values(rng: &mut Rng) -> Vec<Trial> {
    let mut all = Vec::new();
    for kind in [DEGREES, TENTHS] {
        let writer = word_for("write", kind);
        let all_values = values(kind).into_iter().chain(spellings(kind));
        for (number, value) in all_values.enumerate() {
            let page = found(rng, number % FILLINGS);
            all.push(Trial::new("a value", &[&writer, &value], page));
        }
    }
    all
}

/// Every value in range, each over another page.
pub fn written(rng: &mut Rng) -> Vec<Written> {
    let mut all = Vec::new();
    for (kind, first, last, times) in [(DEGREES, 10, 35, 10), (TENTHS, 180, 270, 1)] {
        for (number, value) in (first..=last).enumerate() {
            all.push(Written {
                kind,
                value: value.to_string(),
                tenths: times * value,
                page: found(rng, number % FILLINGS),
            });
        }
    }
    all
}

/// Words that spell no number, made from one that is in range.
pub fn no_numbers(rng: &mut Rng, kind: u16) -> Vec<Vec<u8>> {
    let value = if kind == DEGREES { "21" } else { "210" };
    let forms = [
        "", "-", "--", "--@", "---@", "- @", "+@", "+", "-+@", "+-@", " @", "@ ", " ", "2 1",
        "@\n", "\n@", "@\r\n", "\t@", "@.0", "@,0", "@.", ".@", "0x@", "0x15", "0xD7", "15h",
        "0b1", "0o25", "1e1", "1e2", "@-", "-@-", "@x", "x@", "x", "@/", "@:", "/@", ":@", "NaN",
        "inf", "٣", "٢١", "٢١٠", "²", "２１", "@٣", "−@", "'@'", "\"@\"", "1_0", "2'1", "#@",
        "$((@))", "*", "%d",
    ];
    let mut all: Vec<Vec<u8>> = Vec::new();
    for form in forms {
        all.push(form.replace('@', value).into_bytes());
    }
    all.push([value.as_bytes(), b"\xFF"].concat());
    all.push(vec![0xB2, 0xB1]);
    for (number, length) in LENGTHS.into_iter().enumerate() {
        // Each length to one of the writers.
        if number % 2 == usize::from(kind == DEGREES) && length < 100_002 {
            continue;
        }
        let mut word = padded(210, length).into_bytes();
        let place = if number % 4 < 2 {
            length - 1
        } else {
            rng.below(length)
        };
        // In the longest the letter is the last character.
        let place = if length < 100_002 { place } else { length - 1 };
        word[place] = b'x';
        all.push(word);
    }
    all
}

/// Words that are not the program's.
pub fn other_words() -> Vec<Vec<Vec<u8>>> {
    let lines: [&[&str]; 50] = [
        &[],
        &[""],
        &["Read"],
        &["READ"],
        &["READ101"],
        &["Read102"],
        &["WRITE101", "21"],
        &["Write102", "210"],
        &["read103"],
        &["read100"],
        &["read0101"],
        &["read1011"],
        &["read1"],
        &["read10"],
        &["rea"],
        &["r"],
        &["reader"],
        &["read "],
        &[" read"],
        &["read\n"],
        &["read 101"],
        &["réad"],
        &["write"],
        &["write", "21"],
        &["write10", "21"],
        &["write103", "210"],
        &["write1010", "21"],
        &["write101 21"],
        &["101"],
        &["210"],
        &["help"],
        &["--help"],
        &["-h"],
        &["--", "read"],
        &["list"],
        &["read", ""],
        &["read", "read"],
        &["read", "101"],
        &["read101", "21"],
        &["read102", "210"],
        &["read102", "x", "y"],
        &["write101"],
        &["write102"],
        &["write101", "21", ""],
        &["write101", "21", "21"],
        &["write102", "210", "x"],
        &["write102", "", "210"],
        &["write101", "2", "1"],
        &["21", "write101"],
        &["write102", "-", "210"],
    ];
    with_long_words(&lines)
}
