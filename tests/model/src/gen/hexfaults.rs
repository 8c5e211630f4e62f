//! Intel HEX files with a line at fault, with text after their end, and damaged ones.

use super::hexfiles::{data, data_at, filled, own_text, some, Given, Spot, Style, OWN, SPOTS};
use super::rng::Rng;
use crate::model::book::Rule;
use crate::model::hexfile::{record, sum, DATA, END, IMAGE, LINE};

/// Characters out of form, the neighbours of the digits among them.
const OTHERS: [u8; 30] = [
    0, 1, b'\t', 0x0B, 0x0C, b'\r', 0x10, 0x1A, 0x1F, b' ', b'!', b'+', b'-', b'.', b'/', b':',
    b';', b'@', b'G', b'X', b'Z', b'`', b'g', b'x', 0x7F, 0x80, 0xB0, 0xC1, 0xE6, 0xFF,
];
/// Types other than 00 and 01 that every sort of record has.
const TYPES: [u8; 12] = [2, 3, 4, 5, 6, 0x0F, 0x10, 0x11, 0x80, 0x81, 0xFE, 0xFF];
/// Addresses of data above the image, and how many bytes there are.
const ABOVE: [(u16, usize); 41] = [
    (0x0A40, 1),
    (0x0A40, 2),
    (0x0A40, 16),
    (0x0A40, 255),
    (0x0A41, 1),
    (0x0A3F, 2),
    (0x0A3F, 3),
    (0x0A3F, 16),
    (0x0A3F, 255),
    (0x0A3E, 3),
    (0x0A3E, 16),
    (0x0A38, 9),
    (0x0A31, 16),
    (0x0A30, 17),
    (0x0A30, 32),
    (0x0A00, 65),
    (0x0A00, 255),
    (0x09FF, 66),
    (0x0942, 255),
    (0x0943, 254),
    (0x0A80, 1),
    (0x0AFF, 1),
    (0x0B00, 4),
    (0x0F00, 16),
    (0x1000, 1),
    (0x1000, 16),
    (0x1A3F, 1),
    (0x2000, 255),
    (0x3F0A, 1),
    (0x7FFF, 1),
    (0x8000, 1),
    (0x8A3F, 16),
    (0xA000, 16),
    (0xFF00, 16),
    (0xFF01, 255),
    (0xFF02, 255),
    (0xFFF0, 16),
    (0xFFFE, 2),
    (0xFFFF, 1),
    (0xFFFF, 2),
    (0xFFFF, 255),
];

/// A file with this line in its spot and good ones around it.
fn around(rng: &mut Rng, line: &[u8], spot: Spot) -> Vec<u8> {
    let style = Style::any(rng);
    let mut text = Vec::new();
    let before = match spot {
        Spot::First => 0,
        _ => rng.between(1, 5),
    };
    for bytes in some(rng, before) {
        text.extend(style.line(rng, &bytes));
    }
    text.extend(line);
    if matches!(spot, Spot::First | Spot::Middle) {
        let after = rng.between(1, 3);
        for bytes in some(rng, after) {
            text.extend(style.line(rng, &bytes));
        }
    }
    if spot != Spot::Ends {
        text.extend(style.last(rng));
    }
    text
}

/// A line placed in one spot.
fn placed(rng: &mut Rng, name: &'static str, line: &[u8], spot: Spot) -> Given {
    Given {
        spot: Some(spot),
        ..Given::new(name, around(rng, line, spot))
    }
}

/// A record with other bytes and a right check byte.
fn mended(mut bytes: Vec<u8>, place: usize, byte: u8) -> Vec<u8> {
    bytes[place] = byte;
    let last = bytes.len() - 1;
    bytes[last] = sum(&bytes[..last]).wrapping_neg();
    bytes
}

/// A record with its check byte off by this.
fn off(mut bytes: Vec<u8>, by: u8) -> Vec<u8> {
    let last = bytes.len() - 1;
    bytes[last] = bytes[last].wrapping_add(by);
    bytes
}

/// Records whose count is not that of their data, or whose count and address an end record must not have.
fn wrong_lengths(rng: &mut Rng) -> Vec<Vec<u8>> {
    let mut all = Vec::new();
    for (length, count) in [
        (1, 0),
        (0, 1),
        (16, 15),
        (16, 17),
        (16, 0),
        (16, 255),
        (16, 21),
        (16, 20),
        (1, 2),
        (0, 255),
        (0, 5),
        (255, 254),
        (254, 255),
        (255, 0),
        (128, 127),
        (4, 0x84),
    ] {
        let bytes = mended(data(rng, length), 0, count);
        all.push(off(bytes.clone(), 1));
        all.push(bytes);
    }
    // With another type, and with data above the image.
    for (kind, address) in [
        (2, 0),
        (0xFF, 0),
        (4, 0x0A40),
        (DATA, 0x0A40),
        (DATA, 0xFFFF),
    ] {
        let bytes = record(address, kind, &filled(rng, 4));
        let more = mended(bytes.clone(), 0, 5);
        all.push(off(more.clone(), 0x80));
        all.extend([more, mended(bytes, 0, 3)]);
    }
    // Bytes behind a record that is whole without them.
    all.push([data(rng, 4), vec![0]].concat());
    all.push([data(rng, 4), vec![0x3C, 0xC4]].concat());
    let end = record(0, END, &[]);
    all.push([end.clone(), vec![0]].concat());
    all.push(mended(end.clone(), 0, 1));
    all.push(off(mended(end, 0, 255), 1));
    for (address, length) in [
        (0, 1),
        (0, 2),
        (0, 255),
        (1, 0),
        (0x80, 0),
        (0xFF, 0),
        (0x0100, 0),
        (0x8000, 0),
        (0xFF00, 0),
        (0x0101, 0),
        (0x0A3F, 0),
        (0xFFFF, 0),
        (0x0010, 16),
        (0x0A40, 1),
        (0xFFFF, 2),
    ] {
        let bytes = record(address, END, &filled(rng, length));
        all.push(off(bytes.clone(), 1));
        // Its check byte as if the count and the address were 0.
        let last = bytes.len() - 1;
        let mut plain = bytes.clone();
        plain[last] = 0xFF;
        all.extend([plain, bytes]);
    }
    all
}

/// Records whose check byte is wrong.
fn wrong_sums(rng: &mut Rng) -> Vec<Vec<u8>> {
    let mut all = Vec::new();
    for bit in 0..8 {
        let bytes = [data(rng, 16), record(0, END, &[]), data(rng, 0)];
        all.extend(bytes.map(|bytes| off(bytes, 1 << bit)));
    }
    for length in [0, 1, 16, 255] {
        let bytes = data(rng, length);
        let last = bytes.len() - 1;
        let before = sum(&bytes[..last]);
        // Not negated, all bits turned, none, all.
        for check in [before, !before, 0, 0xFF, before ^ 0x80] {
            let mut other = bytes.clone();
            other[last] = check;
            all.push(other);
        }
        all.push(off(bytes.clone(), 0xFF));
        // As if a byte of the head were not in the sum.
        for place in 0..4 {
            let mut other = mended(bytes.clone(), 2, 0x35);
            if place == 1 {
                other = mended(other, 1, 3);
            } else if place == 3 {
                other = mended(other, 3, 2);
            }
            let head = other[place];
            all.push(off(other, head));
        }
    }
    for check in [0, 1, 0x7F, 0xFE] {
        let mut end = record(0, END, &[]);
        end[4] = check;
        all.push(end);
    }
    for kind in [2, 5, 0x10, 0xFF] {
        all.push(off(record(0x0A40, kind, &filled(rng, 4)), 1));
        all.push(off(record(0, kind, &[]), 0x40));
    }
    for (address, length) in [(0x0A40, 1), (0x0A3F, 2), (0xFFFF, 2)] {
        all.push(off(data_at(rng, address, length), 0x10));
    }
    all
}

/// Records of other types.
fn wrong_types(rng: &mut Rng) -> Vec<Vec<u8>> {
    let mut all = Vec::new();
    for kind in TYPES {
        all.push(record(0, kind, &[]));
        let length = rng.pick(&[1, 2, 4, 16]);
        let address = rng.below(IMAGE - 16) as u16;
        all.push(record(address, kind, &filled(rng, length)));
        all.push(record(0x0A40, kind, &filled(rng, length)));
    }
    // As other programs write them: a segment, a base, a start.
    all.push(record(0, 2, &[0x10, 0]));
    all.push(record(0, 3, &[0, 0, 0, 0]));
    all.push(record(0, 4, &[0, 0]));
    all.push(record(0, 5, &[0, 0, 0, 0]));
    all.push(record(0xFFFF, 4, &[8, 0]));
    all
}

/// Records with a data byte above the image.
fn above(rng: &mut Rng) -> Vec<Vec<u8>> {
    ABOVE
        .into_iter()
        .map(|(address, length)| data_at(rng, address, length))
        .collect()
}

/// Lines of digits that are too few, odd, or no record.
fn short_lines(rng: &mut Rng) -> Vec<Vec<u8>> {
    let texts = [
        "",
        ":",
        ":0",
        ":00",
        ":000",
        ":0000",
        ":00000",
        ":000000",
        ":0000000",
        ":00000000",
        ":00000001",
        ":000001FF",
        ":0001FF",
        ":01FF",
        ":FF",
        ":F",
        ":000000000",
        ":0000000F0",
        ":00000001F",
        ":0000001FF",
        ":00000001FF0",
        ":00000001FF00",
        ":0000000",
        "::",
        ":::",
        "00000001FF",
        "S9030000FC",
        "\r",
        "\r:00000001FF",
        ":00000001FF\r",
        ":\r",
        ":0000\r0001FF",
        " :00000001FF",
        ":00000001FF ",
        "\t:00000001FF",
        ":00000001FF\t",
        "::00000001FF",
        ": 00000001FF",
        ":00 00 00 01 FF",
        ":0x00000001FF",
        ";",
        "; comment",
        "#",
        "//",
        "!",
        "\u{FEFF}:00000001FF",
        "：00000001FF",
        "\0",
        "\0:00000001FF",
        ":00000001FF\0",
        ":00000001FF\0\0",
        ":00000001FF\u{1A}",
        ":00000001FF;",
        ":00000001FF #",
        "x:00000001FF",
        ":00000001FF:00000001FF",
        ":00000001FF\r:00000001FF",
        ":0000000\0001FF",
    ];
    let mut all: Vec<Vec<u8>> = texts.iter().map(|text| text.as_bytes().to_vec()).collect();
    for length in [0, 1, 16, 255] {
        let bytes = data(rng, length);
        let line = [b":", &OWN.digits(rng, &bytes)[..]].concat();
        let place = rng.between(1, line.len() - 2);
        // Without its first digit, its last or any; with one more.
        for place in [1, line.len() - 1, place] {
            let mut less = line.clone();
            less.remove(place);
            all.push(less);
        }
        all.push([&line[..], b"0"].concat());
        all.push([&line[..], b" "].concat());
        all.push([&line[..], b"\r"].concat());
        let mut more = line.clone();
        more.insert(place, b'0');
        all.push(more);
        all.push(line[1..].to_vec());
    }
    all
}

/// Every sort of record at fault, in every spot.
pub fn faults(rng: &mut Rng) -> Vec<Given> {
    let mut all = Vec::new();
    let sorts = [
        ("a length out of form", wrong_lengths(rng)),
        ("a check byte", wrong_sums(rng)),
        ("another type", wrong_types(rng)),
        ("a byte above the image", above(rng)),
    ];
    for (name, records) in sorts {
        for (number, bytes) in records.into_iter().enumerate() {
            // Each record in two of the spots.
            for turn in 0..2 {
                let style = Style::any(rng);
                let line = style.line(rng, &bytes);
                let spot = SPOTS[(number + 2 * turn + number / 4) % 4];
                all.push(placed(rng, name, &line, spot));
            }
        }
    }
    for (number, text) in short_lines(rng).into_iter().enumerate() {
        for turn in 0..2 {
            let style = Style::any(rng);
            let line = [&text[..], style.end(rng)].concat();
            let spot = SPOTS[(number + 2 * turn + number / 4) % 4];
            all.push(placed(rng, "a line out of form", &line, spot));
        }
        // No LF, at the end of the file.
        if number % 3 == 0 && !text.is_empty() {
            all.push(placed(rng, "a last line without LF", &text, Spot::Ends));
        }
    }
    for kind in 2..=0xFF {
        let length = rng.pick(&[0, 1, 2, 4]);
        let bytes = record(0, kind, &filled(rng, length));
        let line = OWN.line(rng, &bytes);
        let spot = SPOTS[usize::from(kind) % 4];
        all.push(placed(rng, "every type", &line, spot));
    }
    all
}

/// Characters out of form in every place of a record, in the place of another or put in.
pub fn characters(rng: &mut Rng) -> Vec<Given> {
    let mut all = Vec::new();
    let right = OWN.line(rng, &record(0, DATA, &[0x9A]));
    let end = OWN.last(rng);
    for (number, other) in OTHERS.into_iter().enumerate() {
        for place in 0..right.len() - 1 {
            // Each neighbour of a digit in every place, the others in some.
            let near = matches!(other, b'/' | b':' | b'@' | b'G' | b'`' | b'g' | 0xB0);
            if place == 0 && other == b':' || !near && (place + number) % 4 > 0 {
                continue;
            }
            let mut line = right.clone();
            line[place] = other;
            let spot = SPOTS[(number + place) % 4];
            all.push(placed(rng, "another character", &line, spot));
        }
        for place in [0, 1, 5, right.len() - 1, right.len()] {
            // A CR before the LF is the line's end.
            if (place + number) % 2 > 0 && place != right.len() - 1 || other == b'\r' {
                continue;
            }
            let mut line = right.clone();
            line.insert(place, other);
            let spot = SPOTS[(number + place) % 3];
            all.push(placed(rng, "a character more", &line, spot));
        }
        if number % 2 == 0 {
            let mut line = end.clone();
            line[rng.between(1, 10)] = other;
            all.push(placed(
                rng,
                "a character of the end record",
                &line,
                Spot::Ends,
            ));
        }
    }
    for extra in [
        "\r\r\n", "\r\r\r\n", " \r\n", "\r \n", "\t\r\n", "\0\r\n", "\n\r", "\r", "\n\n",
        "\r\n\r\n",
    ] {
        let line = [&right[..right.len() - 1], extra.as_bytes()].concat();
        for spot in SPOTS {
            all.push(placed(rng, "a line end", &line, spot));
        }
    }
    all
}

/// Two records at fault: the first decides.
pub fn pairs(rng: &mut Rng) -> Vec<Given> {
    let mut all = Vec::new();
    let faulty = |rng: &mut Rng, number: u8| match number {
        16 => match rng.below(3) {
            0 => mended(data(rng, 4), 0, 5),
            1 => record(1, END, &[]),
            _ => vec![0, 0, 0, 0],
        },
        17 => off(data(rng, 3), 0x20),
        18 => record(0, rng.pick(&TYPES), &[]),
        _ => data_at(rng, 0x0A40, 1),
    };
    for first in 16..=19 {
        for second in 16..=20 {
            for _ in 0..2 {
                let style = Style::any(rng);
                let mut text = Vec::new();
                let before = rng.below(3);
                for bytes in some(rng, before) {
                    text.extend(style.line(rng, &bytes));
                }
                let wrong = faulty(rng, first);
                text.extend(style.line(rng, &wrong));
                let between = rng.below(3);
                for bytes in some(rng, between) {
                    text.extend(style.line(rng, &bytes));
                }
                // A missing end record comes last.
                if second < 20 {
                    let wrong = faulty(rng, second);
                    text.extend(style.line(rng, &wrong));
                    text.extend(style.last(rng));
                }
                let rule = match second.cmp(&first) {
                    std::cmp::Ordering::Less => Some(Rule::HexLaterLower),
                    std::cmp::Ordering::Equal => None,
                    std::cmp::Ordering::Greater => Some(Rule::HexLaterHigher),
                };
                all.push(Given {
                    rule,
                    ..Given::new("two records at fault", text)
                });
            }
        }
    }
    all
}

/// Anything after the end record.
pub fn after(rng: &mut Rng) -> Vec<Given> {
    let mut all = Vec::new();
    let more = OWN.line(rng, &record(0, DATA, &[1, 2]));
    let long = [&b":"[..], &vec![b'0'; 600], b"\n"].concat();
    let own = own_text(&filled(rng, IMAGE));
    let tails: [(&[u8], Rule); 34] = [
        (b"\n", Rule::Hex20Lf),
        (b"\n\n", Rule::Hex20Lf),
        (b"\r\n", Rule::Hex20Crlf),
        (b"\r", Rule::Hex20Open),
        (b"\r\r\n", Rule::Hex20Crlf),
        (&more, Rule::Hex20Record),
        (&own, Rule::Hex20Record),
        (&more[..more.len() - 1], Rule::Hex20Open),
        (b":00000001FF\n", Rule::Hex20Second),
        (b":00000001FF\r\n", Rule::Hex20Second),
        (b":00000001FF", Rule::Hex20Open),
        (b":00000001FE\n", Rule::Hex20Text),
        (b":00000101FE\n", Rule::Hex20Text),
        (b":00000002FE\n", Rule::Hex20Text),
        (b":010A400000B5\n", Rule::Hex20Text),
        (b"\0", Rule::Hex20Nul),
        (b"\0\0\0\0", Rule::Hex20Nul),
        (b"\0\n", Rule::Hex20Nul),
        (b"\x1A", Rule::Hex20Text),
        (b"\x1A\n", Rule::Hex20Text),
        (b" ", Rule::Hex20Text),
        (b" \n", Rule::Hex20Text),
        (b"\t\n", Rule::Hex20Text),
        (b"0", Rule::Hex20Open),
        (b"0000\n", Rule::Hex20Text),
        (b"the end\n", Rule::Hex20Text),
        (b"; the end\n", Rule::Hex20Text),
        (b":", Rule::Hex20Colon),
        (b":\n", Rule::Hex20Colon),
        (b":0", Rule::Hex20Open),
        (b"\xFF", Rule::Hex20High),
        (b"\x80\n", Rule::Hex20High),
        (&long, Rule::Hex20Long),
        (&long[..550], Rule::Hex20Long),
    ];
    for (number, (tail, rule)) in tails.into_iter().enumerate() {
        for turn in 0..3 {
            let style = Style::any(rng);
            let count = [0, 3, 1][turn];
            let records = some(rng, count);
            let text = match (number + turn) % 8 {
                5 => own.clone(),
                _ => style.file(rng, &records),
            };
            all.push(Given {
                rule: Some(rule),
                ..Given::new("after the end record", [&text[..], tail].concat())
            });
        }
    }
    all
}

/// Lines around the longest in form, and far longer.
pub fn long_lines(rng: &mut Rng) -> Vec<Given> {
    let mut all = Vec::new();
    let most = filled(rng, 255);
    let longest = OWN.digits(rng, &record(0x0100, DATA, &most));
    let longest = [b":", &longest[..]].concat();
    // In form but for the length: 256 data bytes that their count cannot tell.
    let mut over = record(0, DATA, &filled(rng, 255));
    over = [&[0], &over[1..]].concat();
    let last = over.len() - 1;
    over = [&over[..last], &[0x5A, 0]].concat();
    over = mended(over, 0, 0);
    let over = [b":", &OWN.digits(rng, &over)[..]].concat();
    let behind = [
        "\r\r\n", "\r\r\r\n", " \n", "  \n", "0\n", "00\n", "000\r\n", "\r0\n", "\r \n",
        "\rjunk\n", "xx\n",
    ];
    for (number, end) in behind.into_iter().enumerate() {
        let line = [&longest[..], end.as_bytes()].concat();
        let spot = SPOTS[number % 3];
        all.push(placed(rng, "behind the longest line", &line, spot));
    }
    for end in ["\n", "\r\n"] {
        let line = [&over[..], end.as_bytes()].concat();
        for spot in [Spot::First, Spot::Middle, Spot::Last] {
            let given = placed(rng, "256 data bytes", &line, spot);
            all.push(Given {
                rule: Some(Rule::Hex16Over),
                ..given
            });
        }
    }
    let sizes = [
        520, 521, 522, 523, 524, 525, 526, 530, 550, 599, 600, 1024, 4095, 4096, 4097, 65_536,
        300_000,
    ];
    for (number, size) in sizes.into_iter().enumerate() {
        for sort in 0..3 {
            let mut line: Vec<u8> = match sort {
                0 => [b":", &longest[1..].repeat(size / longest.len() + 1)[..]].concat(),
                1 => vec![b' '; size],
                _ => (0..size).map(|_| rng.byte() | 0x20).collect(),
            };
            line.truncate(size - 1);
            let open = (number + sort) % 2 == 0;
            line.push(if open { b'0' } else { b'\n' });
            let spot = match open {
                true => Spot::Ends,
                false => SPOTS[number % 4],
            };
            let given = placed(rng, "a long line", &line, spot);
            let far = size == 300_000 && open;
            all.push(Given {
                rule: far.then_some(Rule::Hex16Far),
                ..given
            });
        }
    }
    // As long as the longest, or one character longer, and not ended: the second is decided.
    for size in [LINE - 2, LINE - 1, LINE] {
        let line = [&longest[..], b"00"].concat();
        all.push(placed(
            rng,
            "the longest line without LF",
            &line[..size],
            Spot::Ends,
        ));
    }
    all
}

/// A short file with every bit turned, cut at every place, every character left out or doubled, and every bit of its bytes
/// turned, with the check byte made right again and not.
pub fn every_damage(rng: &mut Rng) -> Vec<Given> {
    let mut all = Vec::new();
    let first = OWN.line(rng, &record(0x0A2B, DATA, &[0xC5]));
    let text = [&first[..], b":00000001ff\r\n"].concat();
    for place in 0..text.len() {
        for bit in 0..8 {
            let mut other = text.clone();
            other[place] ^= 1 << bit;
            all.push(Given::new("a bit of a character turned", other));
        }
        let mut less = text.clone();
        less.remove(place);
        all.push(Given::new("a character left out", less));
        let mut more = text.clone();
        more.insert(place, text[place]);
        all.push(Given::new("a character twice", more));
        all.push(Given::new("a file cut", text[..place].to_vec()));
    }
    let end = record(0, END, &[]);
    for bytes in [record(0x0A2B, DATA, &[0xC5]), end.clone()] {
        for bit in 0..8 * (bytes.len() - 1) {
            let turned = bytes[bit / 8] ^ 1 << (bit % 8);
            let right = mended(bytes.clone(), bit / 8, turned);
            let mut wrong = bytes.clone();
            wrong[bit / 8] = turned;
            for bytes in [right, wrong] {
                let records = [bytes];
                let style = Style::any(rng);
                all.push(Given::new(
                    "a bit of a byte turned",
                    style.file(rng, &records),
                ));
            }
        }
    }
    all
}

/// A good file with bytes turned, left out, put in or cut off anywhere.
pub fn damaged(rng: &mut Rng) -> Given {
    let style = Style::any(rng);
    let count = rng.below(8);
    let records = some(rng, count);
    let mut text = match rng.below(8) {
        0 => own_text(&filled(rng, IMAGE)),
        _ => style.file(rng, &records),
    };
    for _ in 0..rng.between(1, 2) {
        if text.is_empty() {
            break;
        }
        let place = match rng.below(4) {
            0 => text.len() - 1 - rng.below(text.len().min(14)),
            _ => rng.below(text.len()),
        };
        match rng.below(8) {
            0 => text[place] ^= 1 << rng.below(8),
            1 => text[place] = rng.byte(),
            2 => text[place] = rng.pick(b"0123456789abcdefABCDEF"),
            3 => text[place] ^= 0x20,
            4 => drop(text.remove(place)),
            5 => text.insert(place, rng.pick(b"0F\n\r: :")),
            6 => {
                let end = (place + rng.between(1, 30)).min(text.len());
                text.drain(place..end);
            }
            _ => text.truncate(place),
        }
    }
    Given::new("a damaged file", text)
}
