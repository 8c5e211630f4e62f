//! Lines with images, options for the round program, and words that it does not have.

use std::collections::BTreeSet;

use super::cards::{any_code, damaged_card, family, good_code, record, DAMAGES};
use super::hexfiles::filled;
use super::rng::Rng;
use super::values::no_numbers;
use super::words::with_long_words;
use crate::model::memory::IMAGE;
use crate::model::round::PAGE;
use crate::model::setpoint::TENTHS;

/// Most chips on a line.
const MOST: usize = 16;
/// A memory, and a switch.
const KINDS: [u16; 2] = [1, 2];

/// A chip of a line, with its image if it is a memory.
#[derive(Clone, Debug)]
pub struct Unit {
    pub kind: u16,
    pub code: u64,
    pub image: Vec<u8>,
}

/// An option as it is given.
#[derive(Clone, Debug)]
pub enum Opt {
    /// The images of the line, in table order.
    Images,
    /// Another file.
    File(Vec<u8>),
    /// Places, as they are spelt.
    Places(String),
    /// As many bytes of pages as the line asks.
    RightPages,
    /// Bytes of pages, as they are spelt.
    Pages(String),
}

/// A line, and how it is asked about.
#[derive(Clone, Debug)]
pub struct Trial {
    pub name: &'static str,
    pub units: Vec<Unit>,
    /// The card, where it is not that of the units.
    pub card: Option<Vec<u8>>,
    pub options: Vec<Opt>,
}

/// An example of the papers: kinds and codes, words, and the whole output.
pub type Example = (&'static [(u16, u64)], &'static [&'static str], &'static str);

/// The four codes of bench case 2.
const CASE_2: &[(u16, u64)] = &[(1, 0xAC), (1, 0x55), (1, 0xAF), (1, 0x88)];
/// The worked line: a switch and a memory.
const WORKED: &[(u16, u64)] = &[(2, 0x3A), (1, 0x43)];
/// What a wrong page buffer prints.
const REFUSED_5: &str = "0 codes 0 resets 0 slots\nrefused 5\n";

/// The papers' examples, and such as their numbers give.
pub const EXAMPLES: [Example; 10] = [
    (
        WORKED,
        &[],
        "000000000000003A no\n0000000000000043 no\n\
         FFFFFFFFFFFFFFFFFFFFFFFFFFFFFFFFFFFFFFFFFFFFFFFFFFFFFFFFFFFFFFFF\n\
         2 codes 3 resets 752 slots\n",
    ),
    (
        CASE_2,
        &["--places", "2"],
        "0000000000000088 no\n00000000000000AC no\n2 codes 2 resets 400 slots\nrefused 4\n",
    ),
    (
        CASE_2,
        &["--places", "0"],
        "0 codes 1 resets 0 slots\nrefused 4\n",
    ),
    (
        CASE_2,
        &["--places", "99"],
        "0000000000000088 no\n00000000000000AC no\n0000000000000055 no\n00000000000000AF no\n\
         FFFFFFFFFFFFFFFFFFFFFFFFFFFFFFFFFFFFFFFFFFFFFFFFFFFFFFFFFFFFFFFF\n\
         FFFFFFFFFFFFFFFFFFFFFFFFFFFFFFFFFFFFFFFFFFFFFFFFFFFFFFFFFFFFFFFF\n\
         FFFFFFFFFFFFFFFFFFFFFFFFFFFFFFFFFFFFFFFFFFFFFFFFFFFFFFFFFFFFFFFF\n\
         FFFFFFFFFFFFFFFFFFFFFFFFFFFFFFFFFFFFFFFFFFFFFFFFFFFFFFFFFFFFFFFF\n\
         4 codes 8 resets 2208 slots\n",
    ),
    (WORKED, &["--pages", "33"], REFUSED_5),
    (WORKED, &["--pages", "0"], REFUSED_5),
    (CASE_2, &["--places", "2", "--pages", "64"], REFUSED_5),
    (&[], &[], "0 codes 1 resets 0 slots\n"),
    (
        &[],
        &["--places", "0", "--pages", "0"],
        "0 codes 1 resets 0 slots\n",
    ),
    (&[], &["--pages", "32"], REFUSED_5),
];

/// The card of kinds and codes.
pub fn card_of(chips: &[(u16, u64)]) -> Vec<u8> {
    let records = chips.iter().map(|(kind, code)| record(*kind, *code));
    records.collect::<Vec<_>>().concat()
}

/// The distinct codes of a line.
fn codes(units: &[Unit]) -> BTreeSet<u64> {
    units.iter().map(|unit| unit.code).collect()
}

/// The memories of a line.
fn memories(units: &[Unit]) -> impl Iterator<Item = &Unit> {
    units.iter().filter(|unit| unit.kind == 1)
}

/// The bytes of pages that a line asks.
fn pages(units: &[Unit]) -> usize {
    let borne: BTreeSet<u64> = memories(units).map(|unit| unit.code).collect();
    PAGE * borne.len()
}

impl Trial {
    fn new(name: &'static str, units: &[Unit], options: Vec<Opt>) -> Trial {
        Trial {
            name,
            units: units.to_vec(),
            card: None,
            options,
        }
    }

    /// The card.
    pub fn card(&self) -> Vec<u8> {
        let own = || {
            card_of(
                &self
                    .units
                    .iter()
                    .map(|unit| (unit.kind, unit.code))
                    .collect::<Vec<_>>(),
            )
        };
        self.card.clone().unwrap_or_else(own)
    }

    /// What the file of images holds, if one is named.
    pub fn file(&self) -> Option<Vec<u8>> {
        self.options.iter().find_map(|option| match option {
            Opt::Images => Some(images(&self.units)),
            Opt::File(bytes) => Some(bytes.clone()),
            _ => None,
        })
    }

    /// The words, with the name of the file.
    pub fn words(&self, name: &[u8]) -> Vec<Vec<u8>> {
        let words = self.options.iter().flat_map(|option| {
            let (word, value): (&[u8], Vec<u8>) = match option {
                Opt::Images | Opt::File(_) => (b"--images", name.to_vec()),
                Opt::Places(value) => (b"--places", value.clone().into_bytes()),
                Opt::RightPages => (b"--pages", pages(&self.units).to_string().into_bytes()),
                Opt::Pages(value) => (b"--pages", value.clone().into_bytes()),
            };
            [word.to_vec(), value]
        });
        words.collect()
    }
}

/// The images of a line, in table order.
pub fn images(units: &[Unit]) -> Vec<u8> {
    let images = memories(units).map(|unit| &unit.image[..]);
    images.collect::<Vec<_>>().concat()
}

/// Puts a few in another order.
pub fn shuffle<T>(rng: &mut Rng, of: &mut [T]) {
    for place in (1..of.len()).rev() {
        of.swap(place, rng.below(place + 1));
    }
}

/// An image with so many zero bits in page 0, and ones else.
fn sparse(rng: &mut Rng, zeros: usize) -> Vec<u8> {
    let mut image = vec![0xFF; IMAGE];
    for _ in 0..zeros {
        image[rng.below(PAGE)] &= !(1 << rng.below(8));
    }
    image
}

/// An image of any sort.
fn image(rng: &mut Rng) -> Vec<u8> {
    let mut image = filled(rng, IMAGE);
    match rng.below(9) {
        0 => image[..PAGE].fill(0xFF),
        1 => image[..PAGE].fill(0),
        2 => {
            let first = rng.byte();
            let counted = (0..IMAGE).map(|place| first.wrapping_add(place as u8));
            image = counted.collect();
        }
        3 => image = sparse(rng, 1),
        4 => image = sparse(rng, 9),
        5 => {
            image.fill(0);
            image[..PAGE].copy_from_slice(&sparse(rng, 5)[..PAGE]);
        }
        _ => {}
    }
    image
}

/// A chip with an image of its own if it is a memory.
fn unit(rng: &mut Rng, kind: u16, code: u64) -> Unit {
    let image = if kind == 1 { image(rng) } else { Vec::new() };
    Unit { kind, code, image }
}

/// A line of these kinds and codes.
fn line_of(rng: &mut Rng, chips: &[(u16, u64)]) -> Vec<Unit> {
    let units = chips.iter().map(|(kind, code)| unit(rng, *kind, *code));
    units.collect()
}

/// A line of so many chips of any sort.
fn any_line(rng: &mut Rng, chips: usize) -> Vec<Unit> {
    let mut others = Vec::new();
    let mut units = Vec::new();
    for _ in 0..chips {
        let kind = rng.pick(&[1, 1, 2]);
        let code = any_code(rng, kind, &others);
        others.push(code);
        units.push(unit(rng, kind, code));
    }
    units
}

/// So many distinct codes, of these kinds in turn, most of them good.
fn distinct(rng: &mut Rng, chips: usize, kinds: &[u16]) -> Vec<Unit> {
    let mut units: Vec<Unit> = Vec::new();
    while units.len() < chips {
        let kind = kinds[units.len() % kinds.len()];
        let code = match rng.below(4) {
            0 => rng.bits(),
            1 => good_code(rng, family(kind) ^ 0x43 ^ 0x3A),
            _ => good_code(rng, family(kind)),
        };
        if !codes(&units).contains(&code) {
            units.push(unit(rng, kind, code));
        }
    }
    units
}

/// A line of so many chips on a few codes, of both kinds; the memories' images leave room for an AND.
fn shared_line(rng: &mut Rng, chips: usize, few: usize) -> Vec<Unit> {
    let mut kept: Vec<u64> = Vec::new();
    for _ in 0..few {
        let kind = rng.pick(&KINDS);
        kept.push(any_code(rng, kind, &kept.clone()));
    }
    let mostly = rng.pick(&[1, 1, 2]);
    let one = |_| {
        let kind = if rng.chance(60) {
            mostly
        } else {
            rng.pick(&KINDS)
        };
        let code = rng.pick(&kept);
        let zeros = rng.between(1, 40);
        let image = match kind {
            1 if rng.chance(70) => sparse(rng, zeros),
            1 => image(rng),
            _ => Vec::new(),
        };
        Unit { kind, code, image }
    };
    (0..chips).map(one).collect()
}

/// Lines of every number of chips, of memories and of switches, without options and with images.
pub fn counts(rng: &mut Rng) -> Vec<Trial> {
    let mut all = Vec::new();
    for chips in 0..=MOST {
        let units = any_line(rng, chips);
        all.push(Trial::new("any line", &units, vec![]));
        all.push(Trial::new("any line", &units, vec![Opt::Images]));
        let units = distinct(rng, chips, &[1]);
        all.push(Trial::new("memories", &units, vec![Opt::Images]));
        let units = distinct(rng, chips, &KINDS);
        all.push(Trial::new("both kinds", &units, vec![Opt::Images]));
    }
    for chips in [1, 2, 7, 16] {
        let units = distinct(rng, chips, &[2]);
        all.push(Trial::new("switches", &units, vec![]));
        all.push(Trial::new("switches", &units, vec![Opt::Images]));
    }
    let units = distinct(rng, MOST, &[1]);
    all.push(Trial::new("16 memories", &units, vec![]));
    all
}

/// Codes that chips share, in every order of kinds that shows who bears them.
pub fn shapes(rng: &mut Rng) -> Vec<Trial> {
    let shapes: [&[(u16, usize)]; 16] = [
        &[(1, 0), (1, 0)],
        &[(2, 0), (2, 0)],
        &[(1, 0), (2, 0)],
        &[(2, 0), (1, 0)],
        &[(1, 0), (1, 0), (1, 0)],
        &[(1, 0), (2, 0), (1, 0)],
        &[(2, 0), (1, 0), (2, 0)],
        &[(2, 0), (1, 0), (1, 0)],
        &[(1, 0), (1, 0), (2, 0)],
        &[(1, 0), (1, 1), (1, 0), (1, 1)],
        &[(2, 0), (1, 1), (1, 0), (2, 1)],
        &[(2, 2), (1, 0), (1, 1), (2, 0), (1, 1)],
        &[(1, 2), (2, 2), (1, 1), (2, 0), (1, 0)],
        &[(2, 0), (2, 1), (1, 2), (1, 3), (1, 4)],
        &[(1, 4), (2, 3), (1, 3), (2, 2), (1, 2), (1, 2)],
        &[(1, 0), (1, 1), (1, 2), (1, 3), (1, 0), (2, 3), (2, 2)],
    ];
    let mut all = Vec::new();
    for shape in shapes {
        for turn in 0..3 {
            let five: Vec<u64> = match turn {
                0 => (0..5).map(|_| good_code(rng, 0x43)).collect(),
                1 => (0..5).map(|_| good_code(rng, 0x3A)).collect(),
                _ => [0, 2, 1, 3, 1 << 63].to_vec(),
            };
            let chips: Vec<_> = shape.iter().map(|(kind, at)| (*kind, five[*at])).collect();
            let mut units = line_of(rng, &chips);
            if turn == 0 {
                for unit in units.iter_mut().filter(|unit| unit.kind == 1) {
                    unit.image = sparse(rng, 12);
                }
            }
            all.push(Trial::new("a shared code", &units, vec![Opt::Images]));
        }
    }
    // Sixteen chips of one code, all images other ones, or all the same.
    for kinds in [&[1][..], &[1, 2], &[2, 2, 1]] {
        let code = good_code(rng, 0x43);
        let chips: Vec<_> = (0..MOST)
            .map(|at| (kinds[at % kinds.len()], code))
            .collect();
        let mut units = line_of(rng, &chips);
        for unit in units.iter_mut().filter(|unit| unit.kind == 1) {
            unit.image = sparse(rng, 4);
        }
        all.push(Trial::new("one code", &units, vec![Opt::Images]));
        let same = image(rng);
        for unit in units.iter_mut().filter(|unit| unit.kind == 1) {
            unit.image = same.clone();
        }
        all.push(Trial::new("one code, one image", &units, vec![Opt::Images]));
    }
    for number in 0..24 {
        let chips = rng.between(2, MOST);
        let units = shared_line(rng, chips, 1 + number % 6);
        all.push(Trial::new("few codes", &units, vec![Opt::Images]));
    }
    all
}

/// Kinds told and never guessed, codes of every check, and codes whose branch order is not that of numbers.
pub fn told(rng: &mut Rng) -> Vec<Trial> {
    let mut all = Vec::new();
    let mut put = |rng: &mut Rng, name: &'static str, chips: &[(u16, u64)]| {
        let units = line_of(rng, chips);
        all.push(Trial::new(name, &units, vec![Opt::Images]));
        all.push(Trial::new(name, &units, vec![]));
    };
    let memory = good_code(rng, 0x3A);
    let switch = good_code(rng, 0x43);
    put(rng, "families crossed", &[(1, memory), (2, switch)]);
    put(
        rng,
        "families crossed",
        &[(2, switch), (1, memory), (2, 0x43)],
    );
    put(rng, "a family of its own", &[(1, switch), (2, memory)]);
    put(rng, "the code of zeros", &[(1, 0)]);
    put(rng, "the code of zeros", &[(2, 0), (1, switch)]);
    put(
        rng,
        "the code of zeros",
        &[(2, 0), (1, 0), (1, 0), (1, 1 << 56)],
    );
    put(rng, "the code of ones", &[(1, u64::MAX), (1, u64::MAX - 1)]);
    // Each order of three codes; by their bits they stand 4, 2, 1.
    for order in [
        [1, 2, 4],
        [1, 4, 2],
        [2, 1, 4],
        [2, 4, 1],
        [4, 1, 2],
        [4, 2, 1],
    ] {
        put(rng, "branch order", &order.map(|code| (1, code)));
    }
    let bits: Vec<(u16, u64)> = (0..MOST).map(|at| (1, 1 << (4 * at + 3))).collect();
    put(rng, "codes of one bit", &bits);
    let code = rng.bits();
    let deep: Vec<(u16, u64)> = (56..64).map(|at| (KINDS[at % 2], code ^ 1 << at)).collect();
    put(rng, "codes that differ late", &deep);
    for bad in 0..3 {
        let code = good_code(rng, 0x43) ^ 1 << (56 + bad);
        put(rng, "a bad code", &[(1, code), (2, switch), (1, memory)]);
    }
    all
}

/// Places around 16 and far over it, as they are spelt.
fn over() -> Vec<String> {
    let spelt = [
        "17",
        "18",
        "20",
        "32",
        "64",
        "99",
        "100",
        "255",
        "256",
        "258",
        "272",
        "65536",
        "65538",
        "4294967296",
        "4294967298",
        "18446744073709551615",
        "18446744073709551616",
        "18446744073709551618",
        "340282366920938463463374607431768211455",
        "340282366920938463463374607431768211456",
        "340282366920938463463374607431768211458",
        "100000000000000000000000000000",
        "999999999999999999999999999999",
        "123456789012345678901234567890",
    ];
    let mut all: Vec<String> = spelt.map(String::from).to_vec();
    all.push("1".to_string() + &"0".repeat(1000));
    all.push("9".repeat(5000));
    all.push("1".to_string() + &"0".repeat(100_000));
    all
}

/// Numbers with zeros before them.
fn padded(number: usize) -> Vec<String> {
    let mut all = vec![format!("0{number}"), format!("00{number}")];
    for zeros in [3, 17, 30, 300, 5000, 100_000] {
        all.push("0".repeat(zeros) + &number.to_string());
    }
    all
}

/// Every number of places, fewer than codes, as many and more.
pub fn places(rng: &mut Rng) -> Vec<Trial> {
    let mut all = Vec::new();
    let full = distinct(rng, MOST, &[1, 2, 1]);
    let some = distinct(rng, 6, &KINDS);
    let twins = shared_line(rng, 12, 4);
    for places in 0..=MOST {
        for units in [&full, &some, &twins] {
            let mut options = vec![Opt::Places(places.to_string())];
            if rng.chance(40) {
                options.push(Opt::Images);
            }
            if rng.chance(30) {
                options.push(Opt::RightPages);
            }
            shuffle(rng, &mut options);
            all.push(Trial::new("places", units, options));
        }
    }
    let five = distinct(rng, 5, &[2, 1]);
    for value in over() {
        all.push(Trial::new("many places", &five, vec![Opt::Places(value)]));
    }
    for number in [0, 2, 5, 8, 10, 16, 17] {
        for value in padded(number).into_iter().step_by(1 + number % 2) {
            all.push(Trial::new("zeros before", &five, vec![Opt::Places(value)]));
        }
    }
    all.push(Trial::new(
        "full",
        &full,
        vec![Opt::Places("17".into()), Opt::Images],
    ));
    // A place less, as many and one more, where chips share codes and where all are of one kind.
    for number in 0..12 {
        let units = match number % 3 {
            0 => shared_line(rng, 9, 5),
            1 => distinct(rng, 4, &[1 + (number as u16 / 3) % 2]),
            _ => any_line(rng, 10),
        };
        let codes = codes(&units).len();
        for places in [codes - 1, codes, codes + 1] {
            let mut options = vec![Opt::Places(places.to_string())];
            if number % 2 == 0 {
                options.insert(rng.below(2), Opt::Images);
            }
            all.push(Trial::new("places around the codes", &units, options));
        }
    }
    for places in ["0", "1", "16"] {
        all.push(Trial::new("no chip", &[], vec![Opt::Places(places.into())]));
    }
    all
}

/// Lines of which sizes are asked: without chips, without memories, full, with shared codes, and any.
fn sized_lines(rng: &mut Rng) -> Vec<Vec<Unit>> {
    let code = good_code(rng, 0x43);
    vec![
        Vec::new(),
        distinct(rng, 3, &[2]),
        distinct(rng, 1, &[1]),
        distinct(rng, 5, &[2, 1]),
        distinct(rng, MOST, &[1]),
        line_of(
            rng,
            &[(1, code), (1, code), (2, 0x3A), (1, 0x10), (2, code)],
        ),
        shared_line(rng, 14, 5),
        any_line(rng, 9),
    ]
}

/// Page buffers, right and wrong.
pub fn buffers(rng: &mut Rng) -> Vec<Trial> {
    let mut all = Vec::new();
    for units in sized_lines(rng) {
        let asked = pages(&units);
        let memories = memories(&units).count();
        let mut sizes = vec![
            0,
            asked,
            asked + 1,
            asked + PAGE,
            asked + 256,
            512,
            1024,
            PAGE * memories,
            PAGE * codes(&units).len(),
            asked / PAGE,
            rng.below(1025),
        ];
        // As many sizes for every line.
        sizes.extend(match asked {
            0 => [31, 64],
            _ => [asked - 1, asked - PAGE],
        });
        for size in sizes {
            let mut options = vec![Opt::Pages(size.to_string())];
            if rng.chance(25) {
                options.insert(rng.below(2), Opt::Images);
            }
            all.push(Trial::new("a page buffer", &units, options));
        }
    }
    let units = distinct(rng, 3, &[1, 2]);
    for number in [0, 32, 64, 100, 1024] {
        for value in padded(number).into_iter().skip(1).step_by(2) {
            all.push(Trial::new("zeros before", &units, vec![Opt::Pages(value)]));
        }
    }
    all
}

/// Files of images, right and wrong in their size.
pub fn files(rng: &mut Rng) -> Vec<Trial> {
    let mut all = Vec::new();
    for (number, units) in sized_lines(rng).into_iter().enumerate() {
        let own = images(&units);
        let asked = own.len();
        let borne = pages(&units) / PAGE;
        let mut sizes = vec![
            0,
            1,
            asked,
            asked + 1,
            asked + IMAGE,
            asked + 100,
            IMAGE,
            IMAGE * borne,
            IMAGE * units.len(),
            IMAGE * MOST,
            IMAGE * MOST + 1,
            2560 * (asked / IMAGE),
            asked + 65_536,
            rng.below(50_000),
        ];
        // As many sizes for every line.
        sizes.extend(match asked {
            0 => [2, 32, 2 * IMAGE],
            _ => [asked - 1, asked - IMAGE, asked / 2],
        });
        if number % 3 == 0 {
            sizes.push(1_000_001 + rng.below(400_000));
        }
        for size in sizes {
            let mut bytes = own.clone();
            bytes.truncate(size);
            let more = filled(rng, size - bytes.len());
            bytes.extend(more);
            all.push(Trial::new("images", &units, vec![Opt::File(bytes)]));
        }
        let line = [&own[..], b"\n"].concat();
        all.push(Trial::new(
            "images and a line end",
            &units,
            vec![Opt::File(line)],
        ));
    }
    all
}

/// Several things wrong at once: images, pages and places, and a card with them.
pub fn several(rng: &mut Rng) -> Vec<Trial> {
    let mut all = Vec::new();
    for number in 0..48 {
        let units = match number % 4 {
            0 => distinct(rng, 4, &[1, 1, 2]),
            1 => shared_line(rng, 11, 4),
            2 => distinct(rng, 9, &[1]),
            _ => any_line(rng, 7),
        };
        let faults = 1 + number / 4 % 7;
        let [images, buffer, few] = [1, 2, 4].map(|bit| faults & bit != 0);
        let mut options = Vec::new();
        let mut own = self::images(&units);
        if images {
            match number % 3 {
                0 => own.push(0xFF),
                1 => own.truncate(own.len().saturating_sub(IMAGE)),
                _ => own.extend([0; IMAGE]),
            }
            options.push(Opt::File(own));
        } else if rng.chance(50) {
            options.push(Opt::Images);
        }
        if buffer {
            let asked = pages(&units);
            let size = [asked + PAGE, asked + 1, 0, 512][number % 4];
            options.push(Opt::Pages(size.to_string()));
        } else if rng.chance(50) {
            options.push(Opt::RightPages);
        }
        if few {
            let places = rng.below(codes(&units).len());
            options.push(Opt::Places(places.to_string()));
        }
        shuffle(rng, &mut options);
        all.push(Trial::new("several at fault", &units, options));
    }
    // A buffer that is right for the codes that have places, and not for the whole table.
    for places in 1..8 {
        let units = distinct(rng, 8, &[1, 2, 1]);
        let mut listed: Vec<&Unit> = units.iter().collect();
        listed.sort_by_key(|unit| unit.code.reverse_bits());
        let size = PAGE
            * listed[..places]
                .iter()
                .filter(|unit| unit.kind == 1)
                .count();
        let options = vec![
            Opt::Places(places.to_string()),
            Opt::Pages(size.to_string()),
        ];
        all.push(Trial::new("a buffer for the list", &units, options));
    }
    all
}

/// Refused cards, alone and with options that are at fault too.
pub fn refused(rng: &mut Rng) -> Vec<Trial> {
    let mut all = Vec::new();
    for number in 0..3 * DAMAGES {
        let card = damaged_card(rng, number % DAMAGES);
        let mut options = Vec::new();
        if number >= DAMAGES {
            let size = rng.pick(&[0, 1, IMAGE - 1, 2 * IMAGE, 60_000]);
            let bytes = filled(rng, size);
            let places = rng.pick(&["0", "3", "16", "99"]);
            let pages = rng.pick(&["0", "1", "31", "33", "64", "512", "1024"]);
            for option in [
                Opt::File(bytes),
                Opt::Places(places.into()),
                Opt::Pages(pages.into()),
            ] {
                if rng.chance(60) {
                    options.push(option);
                }
            }
            shuffle(rng, &mut options);
        }
        all.push(Trial {
            card: Some(card),
            ..Trial::new("a damaged card", &[], options)
        });
    }
    // Long cards: good records without end, and a wrong one first.
    let good = card_of(&[(1, 1), (2, 2)]).repeat(5000);
    let wrong = [b"\x0A\x00\x03\x00", &good[..]].concat();
    for card in [good, wrong, vec![0; 150_000]] {
        all.push(Trial {
            card: Some(card),
            ..Trial::new("a long card", &[], vec![])
        });
    }
    all
}

/// The options in every order, alone, in pairs and all three.
pub fn orders(rng: &mut Rng) -> Vec<Trial> {
    let orders: [&[usize]; 16] = [
        &[],
        &[0],
        &[1],
        &[2],
        &[0, 1],
        &[1, 0],
        &[0, 2],
        &[2, 0],
        &[1, 2],
        &[2, 1],
        &[0, 1, 2],
        &[0, 2, 1],
        &[1, 0, 2],
        &[1, 2, 0],
        &[2, 0, 1],
        &[2, 1, 0],
    ];
    let mut all = Vec::new();
    for order in orders {
        for turn in 0..2 {
            let units = match turn {
                0 => shared_line(rng, 8, 4),
                _ => distinct(rng, 4, &[1, 2, 1]),
            };
            let codes = codes(&units).len();
            let places = if turn == 0 { codes } else { codes - 1 };
            let option = |at: &usize| match at {
                0 => Opt::Images,
                1 => Opt::Places(places.to_string()),
                _ => Opt::RightPages,
            };
            let options = order.iter().map(option).collect();
            all.push(Trial::new("an order of options", &units, options));
        }
    }
    all
}

/// A trial of any sort.
pub fn any(rng: &mut Rng) -> Trial {
    let chips = rng.below(MOST + 1);
    let few = rng.between(1, 6);
    let units = match rng.below(3) {
        0 => any_line(rng, chips),
        1 => shared_line(rng, chips, few),
        _ => distinct(rng, chips, &[1, 2, 1]),
    };
    let mut options = Vec::new();
    match rng.below(10) {
        0..=5 => options.push(Opt::Images),
        6 => {
            let mut bytes = images(&units);
            match rng.below(3) {
                0 => bytes.push(rng.byte()),
                1 => bytes.truncate(bytes.len().saturating_sub(1)),
                _ => bytes.truncate(rng.below(bytes.len() + 1)),
            }
            options.push(Opt::File(bytes));
        }
        _ => {}
    }
    match rng.below(10) {
        0..=2 => options.push(Opt::Places(rng.below(18).to_string())),
        3 => options.push(Opt::Places(rng.below(2000).to_string())),
        _ => {}
    }
    match rng.below(10) {
        0..=2 => options.push(Opt::RightPages),
        3 => options.push(Opt::Pages(rng.below(1025).to_string())),
        _ => {}
    }
    shuffle(rng, &mut options);
    let mut trial = Trial::new("any", &units, options);
    if rng.chance(5) {
        let damage = rng.below(DAMAGES);
        trial.card = Some(damaged_card(rng, damage));
    }
    trial
}

/// Lines with images for the program to be held against itself.
pub fn turned(rng: &mut Rng) -> Vec<Vec<Unit>> {
    let mut all = Vec::new();
    for number in 0..12 {
        let chips = rng.between(3, 13);
        all.push(match number % 3 {
            0 => distinct(rng, chips, &[1, 2, 1]),
            1 => shared_line(rng, chips, 4),
            _ => any_line(rng, chips),
        });
    }
    all
}

/// A switch of a code that is on the line.
pub fn twin(rng: &mut Rng, units: &[Unit]) -> Unit {
    let code = units[rng.below(units.len())].code;
    Unit {
        kind: 2,
        code,
        image: Vec::new(),
    }
}

/// A few lines of any sort, for the ways to give a card.
pub fn some_lines(rng: &mut Rng) -> Vec<Vec<Unit>> {
    vec![
        distinct(rng, 2, &[1, 2]),
        shared_line(rng, 7, 3),
        distinct(rng, MOST, &[1, 2, 2]),
        any_line(rng, 5),
    ]
}

/// Words that are not the program's; where a file is named, it is this one, or one that is not there.
pub fn other_words(rng: &mut Rng, file: &str) -> Vec<Vec<Vec<u8>>> {
    let lines: [&[&str]; 66] = [
        &[""],
        &["", ""],
        &["-"],
        &["--"],
        &["---"],
        &["--", "--places", "2"],
        &["--places", "2", "--"],
        &["--places", "2", "-"],
        &["round"],
        &["card"],
        &["list"],
        &["2"],
        &["16", "32"],
        &["help"],
        &["--help"],
        &["-h"],
        &["--version"],
        &[file],
        &["missing"],
        &["images", file],
        &["places", "2"],
        &["pages", "32"],
        &["-images", file],
        &["-places", "2"],
        &["-pages", "32"],
        &["-p", "2"],
        &["---places", "2"],
        &["--Images", file],
        &["--PLACES", "2"],
        &["--Pages", "32"],
        &["--images=", file],
        &["--places=2"],
        &["--pages=32"],
        &["--places=", "2"],
        &["--i", file],
        &["--image", file],
        &["--p", "2"],
        &["--pl", "2"],
        &["--place", "2"],
        &["--page", "32"],
        &["--imagess", file],
        &["--places2"],
        &["--placess", "2"],
        &["--pages ", "32"],
        &[" --pages", "32"],
        &["--images"],
        &["--places"],
        &["--pages"],
        &["--places", "2", "--pages"],
        &["--pages", "32", "--places"],
        &["--images", file, "--places"],
        &["--places", "2", "--images"],
        &["--images", file, "--pages", "32", "--places"],
        &["--places", "2", "3"],
        &["--places", "2", ""],
        &["", "--places", "2"],
        &["x", "--places", "2"],
        &["--places", "2", "x", "--pages", "32"],
        &["--places", "2", "--places", "2"],
        &["--places", "2", "--places", "3"],
        &["--pages", "32", "--pages", "32"],
        &["--pages", "32", "--places", "2", "--pages", "64"],
        &["--images", file, "--images", file],
        &["--images", file, "--places", "1", "--images", "missing"],
        &["--images", "missing", "--places", "x"],
        &["--images", "missing", "--pages", "1025"],
    ];
    let mut all = with_long_words(&lines);
    // Numbers that are none, to both options, some behind a file.
    let mut numbers = no_numbers(rng, TENTHS);
    let more = [
        "-1", "-0", "-2", "+0", "-32", "+32", " 32", "32 ", "0x20", "0x2", "2x", "32x", "1,024",
        "1 024", "--pages", "--images", "--places", "",
    ];
    numbers.extend(more.map(|number| number.as_bytes().to_vec()));
    for (number, value) in numbers.into_iter().enumerate() {
        for option in ["--places", "--pages"] {
            let mut line = vec![option.as_bytes().to_vec(), value.clone()];
            match number % 4 {
                0 => line.extend(["--images", file].map(|word| word.as_bytes().to_vec())),
                1 => line
                    .splice(
                        0..0,
                        ["--images", "missing"].map(|word| word.as_bytes().to_vec()),
                    )
                    .for_each(drop),
                _ => {}
            }
            all.push(line);
        }
    }
    let large = [
        "1025",
        "1026",
        "1056",
        "1280",
        "2048",
        "9999",
        "65535",
        "65536",
        "65568",
        "4294967296",
        "4294967328",
        "18446744073709551615",
        "18446744073709551648",
        "340282366920938463463374607431768211456",
        "340282366920938463463374607431768211488",
        "100000000000000000000000000000",
        "0001025",
    ];
    let mut large: Vec<String> = large.map(String::from).to_vec();
    large.push("1".to_string() + &"0".repeat(100_000));
    large.push("0".repeat(99_990) + "18446744073709551648");
    for value in large {
        all.push(vec![b"--pages".to_vec(), value.into_bytes()]);
    }
    all
}
