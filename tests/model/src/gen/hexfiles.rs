//! Intel HEX files in every form that is read, images to be written, and words that the hexfile program does not have.

use super::rng::Rng;
use super::words::with_long_words;
use crate::model::book::{Book, Rule};
use crate::model::hexfile::{record, write, DATA, END, IMAGE};

/// A file to be read.
pub struct Given {
    pub name: &'static str,
    pub text: Vec<u8>,
    /// Where its line at fault stands.
    pub spot: Option<Spot>,
    /// The class that is met where it is answered right.
    pub rule: Option<Rule>,
}

/// Where a line stands in its file.
#[derive(Clone, Copy, PartialEq, Eq, Debug)]
pub enum Spot {
    /// Before all others.
    First,
    /// Between others.
    Middle,
    /// Straight before the end record.
    Last,
    /// In the place of the end record.
    Ends,
}

/// Every spot.
pub const SPOTS: [Spot; 4] = [Spot::First, Spot::Middle, Spot::Last, Spot::Ends];

/// The papers' files, and what the program answers: a refusal, or an image of FFh but for the last byte.
pub const TABLE: [(&str, Result<u8, u8>); 8] = [
    (":00000001FF\n", Ok(0xFF)),
    (":00000001FF", Err(16)),
    (":00000101FE\n", Err(16)),
    (":00000001FE\n", Err(17)),
    (":00000002FE\n", Err(18)),
    (":010A3F0000B6\n:00000001FF\n", Ok(0)),
    (":010A400000B5\n:00000001FF\n", Err(19)),
    (":00000001FF\n\n", Err(20)),
];

/// How digits are spelt.
#[derive(Clone, Copy, PartialEq, Eq)]
pub enum Case {
    Capitals,
    Small,
    Mixed,
}

/// How lines end.
#[derive(Clone, Copy, PartialEq, Eq)]
pub enum Ending {
    Lf,
    Crlf,
    Both,
}

/// How a file is spelt.
#[derive(Clone, Copy)]
pub struct Style {
    pub case: Case,
    pub ending: Ending,
}

/// The style of the files that are written.
pub const OWN: Style = Style {
    case: Case::Capitals,
    ending: Ending::Lf,
};
const CASES: [Case; 3] = [Case::Capitals, Case::Small, Case::Mixed];
const ENDINGS: [Ending; 3] = [Ending::Lf, Ending::Crlf, Ending::Both];
/// Data lengths at which something might change.
const LENGTHS: [usize; 12] = [1, 2, 8, 15, 16, 17, 32, 33, 127, 128, 254, 255];
/// Addresses of records without data.
const EMPTY: [u16; 13] = [
    0, 1, 0x0A00, 0x0A3F, 0x0A40, 0x0A41, 0x0AFF, 0x1000, 0x3F0A, 0x7FFF, 0x8000, 0xFFFE, 0xFFFF,
];

impl Given {
    pub fn new(name: &'static str, text: Vec<u8>) -> Given {
        Given {
            name,
            text,
            spot: None,
            rule: None,
        }
    }
}

impl Style {
    /// Any style.
    pub fn any(rng: &mut Rng) -> Style {
        Style {
            case: rng.pick(&CASES),
            ending: rng.pick(&ENDINGS),
        }
    }

    /// Bytes in digits.
    pub fn digits(self, rng: &mut Rng, bytes: &[u8]) -> Vec<u8> {
        let mut text = Vec::new();
        for byte in bytes {
            for digit in format!("{byte:02X}").bytes() {
                let small = match self.case {
                    Case::Capitals => false,
                    Case::Small => true,
                    Case::Mixed => rng.chance(50),
                };
                text.push(if small {
                    digit.to_ascii_lowercase()
                } else {
                    digit
                });
            }
        }
        text
    }

    /// A line end.
    pub fn end(self, rng: &mut Rng) -> &'static [u8] {
        let crlf = match self.ending {
            Ending::Lf => false,
            Ending::Crlf => true,
            Ending::Both => rng.chance(50),
        };
        if crlf {
            b"\r\n"
        } else {
            b"\n"
        }
    }

    /// The line of a record.
    pub fn line(self, rng: &mut Rng, bytes: &[u8]) -> Vec<u8> {
        let digits = self.digits(rng, bytes);
        [b":", &digits[..], self.end(rng)].concat()
    }

    /// The end record.
    pub fn last(self, rng: &mut Rng) -> Vec<u8> {
        self.line(rng, &record(0, END, &[]))
    }

    /// A file of these records and the end record.
    pub fn file(self, rng: &mut Rng, records: &[Vec<u8>]) -> Vec<u8> {
        let lines = records.iter().map(|bytes| self.line(rng, bytes));
        let mut text = lines.collect::<Vec<_>>().concat();
        text.extend(self.last(rng));
        text
    }
}

/// Bytes of any value, or many of them the same.
pub fn filled(rng: &mut Rng, size: usize) -> Vec<u8> {
    let most = rng.pick(&[0, 0, 30, 80]);
    let usual = rng.pick(&[0, 0xFF]);
    let byte = |_| {
        let byte = rng.byte();
        if rng.chance(most) {
            usual
        } else {
            byte
        }
    };
    (0..size).map(byte).collect()
}

/// A data record of this length at any address that it can have.
pub fn data(rng: &mut Rng, length: usize) -> Vec<u8> {
    let address = match length {
        0 => rng.bits() as u16,
        _ => rng.between(0, IMAGE - length) as u16,
    };
    data_at(rng, address, length)
}

/// A data record at an address.
pub fn data_at(rng: &mut Rng, address: u16, length: usize) -> Vec<u8> {
    let bytes = filled(rng, length);
    record(address, DATA, &bytes)
}

/// A length, mostly a short one.
pub fn length(rng: &mut Rng) -> usize {
    match rng.below(6) {
        0 => rng.below(256),
        1 => 16,
        _ => rng.below(20),
    }
}

/// Some data records.
pub fn some(rng: &mut Rng, count: usize) -> Vec<Vec<u8>> {
    let one = |_| {
        let length = length(rng);
        data(rng, length)
    };
    (0..count).map(one).collect()
}

/// The text of an image in our own form.
pub fn own_text(image: &[u8]) -> Vec<u8> {
    write(image, &mut Book::new(None)).unwrap_or_default()
}

/// Images: of one value, counting, all but one byte the same, and any.
pub fn images(rng: &mut Rng) -> Vec<Vec<u8>> {
    let mut all = vec![vec![0xFF; IMAGE], vec![0; IMAGE], vec![0x5A; IMAGE]];
    all.push((0..IMAGE).map(|place| place as u8).collect());
    all.push((0..IMAGE).map(|place| (place / 16) as u8).collect());
    all.push((0..IMAGE).map(|place| !place as u8).collect());
    let places = [0, 1, 15, 16, 255, 256, 2607, 2608, IMAGE - 1];
    for (number, place) in places.into_iter().enumerate() {
        let blank = if number % 2 == 0 { 0xFF } else { 0 };
        let mut image = vec![blank; IMAGE];
        image[place] = !blank ^ (number as u8) << 3;
        all.push(image);
    }
    all.extend((0..10).map(|_| filled(rng, IMAGE)));
    all
}

/// Files that are read.
pub fn good(rng: &mut Rng) -> Vec<Given> {
    let mut all = Vec::new();
    let mut put = |name: &'static str, text: Vec<u8>| all.push(Given::new(name, text));
    for image in images(rng).into_iter().step_by(3) {
        put("our own file", own_text(&image));
    }
    for case in CASES {
        for ending in ENDINGS {
            let style = Style { case, ending };
            put("an end record alone", style.last(rng));
            for count in [1, 4, 30] {
                let records = some(rng, count);
                put("a style", style.file(rng, &records));
            }
        }
    }
    // Every length, four to a file, in any order of addresses.
    for first in 0..64 {
        let lengths = [first, 127 - first, 128 + first, 255 - first];
        let records = lengths.map(|length| data(rng, length));
        let style = Style::any(rng);
        put("lengths", style.file(rng, &records));
    }
    for length in LENGTHS {
        let address = (IMAGE - length) as u16;
        let style = Style::any(rng);
        let mut records = some(rng, 2);
        records.push(data_at(rng, address, length));
        put("a record up to 0A3Fh", style.file(rng, &records));
    }
    for address in EMPTY {
        let style = Style::any(rng);
        let mut records = some(rng, 1);
        records.push(record(address, DATA, &[]));
        records.extend(some(rng, 1));
        put("a record without data", style.file(rng, &records));
    }
    let empty = EMPTY.map(|address| record(address, DATA, &[]));
    put("records without data", OWN.file(rng, &empty));
    // The longest line in form.
    for _ in 0..3 {
        let style = Style {
            case: rng.pick(&CASES),
            ending: Ending::Crlf,
        };
        let records = [data(rng, 255), data(rng, 255)];
        put("longest lines", style.file(rng, &records));
    }
    // Bytes given again and again, in a few places.
    for number in 0..30 {
        let first = rng.pick(&[0, 0x00F0, 0x0100, 0x0A20]);
        let one = |_| {
            let length = rng.between(1, 24);
            let most = (IMAGE - length).min(first + 8);
            let address = rng.between(first, most.max(first)).min(IMAGE - length);
            data_at(rng, address as u16, length)
        };
        let records: Vec<_> = (0..2 + number % 12).map(one).collect();
        let style = Style::any(rng);
        put("bytes given twice", style.file(rng, &records));
    }
    // One record over the other: a part of it, all of it, more than it.
    for (address, length) in [(0x20, 16), (0x28, 16), (0x18, 16), (0x24, 4), (0x10, 48)] {
        for fill in [0, 0xA5, 0xFF] {
            let under = data_at(rng, 0x20, 16);
            let over = record(address, DATA, &vec![fill; length]);
            put("one over the other", OWN.file(rng, &[under, over]));
        }
    }
    // All of the image by records of one length, falling or in any order.
    for (number, length) in [1, 16, 64, 255, 3].into_iter().enumerate() {
        let image = filled(rng, IMAGE);
        let rows = image.chunks(length).enumerate();
        let mut records: Vec<_> = rows
            .map(|(row, bytes)| record((row * length) as u16, DATA, bytes))
            .collect();
        if number % 2 == 0 {
            for place in (1..records.len()).rev() {
                records.swap(place, rng.below(place + 1));
            }
        } else {
            records.reverse();
        }
        let style = Style::any(rng);
        put(
            "the whole image in another order",
            style.file(rng, &records),
        );
    }
    for _ in 0..50 {
        let count = rng.below(12);
        let records = some(rng, count);
        let style = Style::any(rng);
        put("any file", style.file(rng, &records));
    }
    all
}

/// A long file of at least so many characters, without its end record: records of these lengths at any address.
fn long_lines(rng: &mut Rng, size: usize, lengths: &[usize], style: Style) -> Vec<u8> {
    let mut text = Vec::with_capacity(size + 600);
    while text.len() < size {
        let length = rng.pick(lengths);
        let record = data(rng, length);
        text.extend(style.line(rng, &record));
    }
    text
}

/// Long files, read or refused far inside.
pub fn long(rng: &mut Rng) -> Vec<Given> {
    let mut all = Vec::new();
    let shapes: [(usize, &[usize]); 3] = [
        (1_050_000, &[0, 1, 16, 255]),
        (1_200_000, &[0, 1]),
        (3_050_000, &[1, 2, 16, 32, 255]),
    ];
    for (number, (size, lengths)) in shapes.into_iter().enumerate() {
        let style = Style::any(rng);
        let lines = long_lines(rng, size, lengths, style);
        let end = style.last(rng);
        all.push(Given::new("a long file", [&lines[..], &end].concat()));
        // The same with one fault far inside, and without its end record.
        let mut wrong = data(rng, 16);
        match number {
            0 => wrong[20] ^= 1,
            1 => wrong[0] ^= 1,
            _ => wrong = record(0x0A38, DATA, &[0; 9]),
        }
        let mut text = [&lines[..], &style.line(rng, &wrong)].concat();
        text.extend(style.line(rng, &record(0, 2, &[0, 0])));
        text.extend(&end);
        all.push(Given {
            rule: Some(Rule::HexFarFault),
            ..Given::new("a long file with a fault", text)
        });
        let open = if number == 0 {
            lines.len() - 1
        } else {
            lines.len()
        };
        all.push(Given::new(
            "a long file without an end",
            lines[..open].to_vec(),
        ));
    }
    all
}

/// Sizes of images that are refused.
pub const SIZES: [usize; 22] = [
    0, 1, 2, 15, 16, 255, 512, 656, 1312, 2560, 2608, 2622, 2623, 2625, 2626, 2640, 4096, 5248,
    7228, 7872, 68_160, 100_000,
];

/// Words that are not the program's.
pub fn other_words() -> Vec<Vec<Vec<u8>>> {
    let lines: [&[&str]; 41] = [
        &[],
        &[""],
        &["Read"],
        &["READ"],
        &["WRITE"],
        &["Write"],
        &["READ", "image.hex"],
        &["rea"],
        &["r"],
        &["w"],
        &["writ"],
        &["reader"],
        &["read "],
        &[" read"],
        &["read\n"],
        &["readimage.hex"],
        &["read=image.hex"],
        &["write1"],
        &["writes", "image"],
        &["réad"],
        &["help"],
        &["--help"],
        &["-h"],
        &["-"],
        &["--"],
        &["--", "read"],
        &["list"],
        &["hexfile"],
        &["image.hex"],
        &["image.hex", "read"],
        &["", "read"],
        &["read", "a", "b"],
        &["read", "", ""],
        &["read", "-", "-"],
        &["read", "--", "a"],
        &["read", "write", "a"],
        &["write", "a", "b"],
        &["write", "a", ""],
        &["write", "", "a"],
        &["write", "a", "b", "c"],
        &["read", "a", "b", "c", "d", "e", "f", "g"],
    ];
    with_long_words(&lines)
}
