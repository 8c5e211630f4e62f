//! The papers' examples of the round, and other cases of it.

use crate::gen::rng::Rng;
use crate::gen::rounds::{card_of, turned, EXAMPLES};
use crate::model::book::Book;
use crate::model::chip::{Chip, DS2413, DS28EC20};
use crate::model::line::Line;
use crate::model::memory::IMAGE;
use crate::model::round::words::{round_said, Said};
use crate::model::round::{borne, codes, pages_asked, round, Round};

/// What is printed for a card, a file and words.
fn printed(chips: &[(u16, u64)], file: Option<&[u8]>, words: &[&str], book: &mut Book) -> String {
    let words: Vec<Vec<u8>> = words.iter().map(|word| word.as_bytes().to_vec()).collect();
    let Said { printed, errors } = round_said(&words, file, &card_of(chips), book);
    if errors.is_empty() {
        String::from_utf8_lossy(&printed).into_owned()
    } else {
        String::from_utf8_lossy(&errors).into_owned()
    }
}

/// A line of chips of these kinds and codes, each memory with its own byte all over its image.
fn line_of(chips: &[(u32, u64, u8)], book: &mut Book) -> Line {
    let table = chips
        .iter()
        .map(|(kind, code, _)| Chip::at_set_up(*kind, *code));
    let mut line = Line::set_up(table.collect(), book);
    let memories = chips.iter().filter(|(kind, _, _)| *kind == DS28EC20);
    for (image, (_, _, byte)) in line.images.chunks_mut(IMAGE).zip(memories) {
        image.fill(*byte);
    }
    line
}

/// The papers' examples.
pub fn examples(book: &mut Book) -> bool {
    EXAMPLES
        .iter()
        .all(|(chips, words, text)| printed(chips, None, words, book) == *text)
}

/// 16 memories: 8,832 slots and 32 resets; the codes of four bits stand by their lowest bit first.
pub fn sixteen(book: &mut Book) -> bool {
    let chips: Vec<(u16, u64)> = (0..16).map(|code| (1, code)).collect();
    let mut images = vec![0xFF; 16 * IMAGE];
    for (code, image) in images.chunks_mut(IMAGE).enumerate() {
        image[0] = code as u8;
        image[32] = 0xEE;
    }
    let order = [0, 8, 4, 12, 2, 10, 6, 14, 1, 9, 5, 13, 3, 11, 7, 15];
    let mut want = String::new();
    for code in order {
        let word = if code == 0 { "zero" } else { "no" };
        want += &format!("{code:016X} {word}\n");
    }
    for code in order {
        want += &format!("{code:02X}{}\n", "F".repeat(62));
    }
    want += "16 codes 32 resets 8832 slots\n";
    let named = ["--images", "a file"];
    printed(&chips, Some(&images), &named, book) == want
        && printed(&chips, Some(&images[1..]), &named, book)
            == "0 codes 0 resets 0 slots\nrefused 5\n"
        && want.len() == 16 * 65 + "0000000000000000 zero\n".len() + 15 * 20 + 30
}

/// Who bears a code, and the AND of their bytes: read off the table, and each code once.
pub fn borne_codes(book: &mut Book) -> bool {
    let mut read = |chips: &[(u32, u64, u8)]| {
        let mut line = line_of(chips, book);
        let done = round(&mut line, 16, None, book);
        let pages: Vec<u8> = done.pages.iter().map(|page| page[0]).collect();
        let whole = done.pages.iter().all(|page| *page == [page[0]; 32]);
        (pages, done.resets, done.slots, whole)
    };
    let [memory, switch] = [DS28EC20, DS2413];
    // One bearer: its own bytes, whatever the code's family is.
    read(&[(memory, 0x3A, 0xC3)]) == (vec![0xC3], 2, 552, true)
        && read(&[(switch, 0x43, 0)]) == (vec![], 1, 200, true)
        // Two bearers: the AND. A switch with the code sends ones.
        && read(&[(memory, 1, 0xF0), (memory, 1, 0x3C)]) == (vec![0x30], 2, 552, true)
        && read(&[(switch, 1, 0), (memory, 1, 0xF0)]) == (vec![0xF0], 2, 552, true)
        && read(&[(memory, 1, 0xF0), (switch, 1, 0), (memory, 1, 0x3C)])
            == (vec![0x30], 2, 552, true)
        && read(&[(switch, 1, 0), (switch, 1, 0)]) == (vec![], 1, 200, true)
        // In list order: 2 before 1, wherever they stand.
        && read(&[(memory, 1, 0x11), (memory, 2, 0x22)]) == (vec![0x22, 0x11], 4, 1104, true)
        && read(&[(memory, 2, 0x22), (switch, 4, 0), (memory, 1, 0x11)])
            == (vec![0x22, 0x11], 5, 1304, true)
}

/// The events counted on the model's own line are 200 n + 352 m slots, and n, or 1, and m resets.
pub fn counted(book: &mut Book) -> bool {
    let mut rng = Rng::new(108);
    turned(&mut rng).iter().all(|units| {
        let chips = units.iter();
        let table = chips.map(|unit| Chip::at_set_up(unit.kind.into(), unit.code));
        let mut line = Line::set_up(table.collect(), book);
        let [n, m] = [codes(&line.table), borne(&line.table)].map(|set| set.len() as u64);
        let asked = pages_asked(&line.table);
        let done = round(&mut line, 16, Some(asked), book);
        let fits = asked as u64 == 32 * m && done.pages.len() as u64 == m;
        let counts = (done.resets, done.slots) == (n + m, 200 * n + 352 * m);
        // With a place less: the search's counts, and no page.
        let four = round(&mut line, n as usize - 1, Some(asked), book);
        let refused = four.refusal == Some(4) && four.pages.is_empty();
        let few = (four.resets, four.slots) == ((n - 1).max(1), 200 * (n - 1));
        fits && counts && refused && few && four.list == done.list[..n as usize - 1]
    })
}

/// 8, then 5 for images or scratchpads, then 5 for pages, then 4; before 4 nothing happens on the line.
pub fn refusals_in_order(book: &mut Book) -> bool {
    let chips = [(DS28EC20, 1, 0), (DS28EC20, 2, 0), (DS2413, 3, 0)];
    let nothing = |refusal: u8| Round {
        refusal: Some(refusal),
        ..Round::default()
    };
    let mut spoilt = |spoil: fn(&mut Line), places: usize, buffer: Option<usize>| {
        let mut line = line_of(&chips, book);
        spoil(&mut line);
        round(&mut line, places, buffer, book)
    };
    let out = |line: &mut Line| line.table[0].latches = 9;
    let both = |line: &mut Line| {
        line.table[0].latches = 9;
        line.images.push(0);
    };
    let images = |line: &mut Line| line.images.push(0);
    let pads = |line: &mut Line| line.pads.truncate(1);
    let none = |_: &mut Line| {};
    let four = spoilt(none, 2, Some(64));
    spoilt(out, 16, None) == nothing(8)
        && spoilt(both, 0, Some(1)) == nothing(8)
        && spoilt(images, 16, Some(64)) == nothing(5)
        && spoilt(images, 0, Some(1)) == nothing(5)
        && spoilt(pads, 0, Some(64)) == nothing(5)
        && spoilt(none, 16, Some(65)) == nothing(5)
        && spoilt(none, 1, Some(32)) == nothing(5)
        && spoilt(none, 0, Some(0)) == nothing(5)
        && four
            == Round {
                list: vec![2, 1],
                resets: 2,
                slots: 400,
                ..nothing(4)
            }
        && spoilt(none, 3, Some(64)).refusal.is_none()
}

/// Words, and how a number may be spelt.
pub fn program_words(book: &mut Book) -> bool {
    let chips = [(1, 1), (1, 2), (1, 3)];
    let usage = |text: String| text.starts_with("usage: round") && text.ends_with('\n');
    let mut gives = |words: &[&str]| printed(&chips, Some(&[]), words, book);
    let whole = gives(&[]);
    let four = "0000000000000002 no\n1 codes 1 resets 200 slots\nrefused 4\n";
    let five = "0 codes 0 resets 0 slots\nrefused 5\n";
    let spelt = whole.ends_with("\n3 codes 6 resets 1656 slots\n")
        && gives(&["--places", "3"]) == whole
        && gives(&["--places", "00000000000000000000000000000016"]) == whole
        && gives(&["--places", "100000000000000000000000000001"]) == whole
        && gives(&["--places", "18446744073709551617"]) == whole
        && gives(&["--places", "01"]) == four
        && gives(&["--pages", "96", "--places", "1"]) == four
        && gives(&["--places", "1", "--pages", "0096"]) == four
        && gives(&["--pages", "1024"]) == five
        && gives(&["--pages", "95"]) == five
        && gives(&["--images", "--places", "--places", "9"]) == five;
    let wrong: [&[&str]; 14] = [
        &["--places"],
        &["--places", ""],
        &["--places", "-1"],
        &["--places", "+1"],
        &["--places", " 1"],
        &["--places", "1", "--places", "1"],
        &["--places", "1", "x"],
        &["--place", "1"],
        &["--places=1"],
        &["--pages", "1025"],
        &["--pages", "18446744073709551712"],
        &["--pages", "0x60"],
        &["--images"],
        &["--images", "a", "--images", "a"],
    ];
    spelt && wrong.iter().all(|words| usage(gives(words)))
}

/// A refused card is told alone, whatever else is wrong.
pub fn refused_cards(book: &mut Book) -> bool {
    let mut told = |words: &[&str], file: &[u8], card: &[u8]| {
        let words: Vec<Vec<u8>> = words.iter().map(|word| word.as_bytes().to_vec()).collect();
        String::from_utf8_lossy(&round_said(&words, Some(file), card, book).printed).into_owned()
    };
    let many = card_of(&[(1, 1); 17]);
    let kind = card_of(&[(1, 1), (3, 2)]);
    let all = ["--pages", "7", "--images", "a file", "--places", "0"];
    told(&[], b"", &many) == "refused 1 at 192\n"
        && told(&all, b"x", &many) == "refused 1 at 192\n"
        && told(&all, b"x", &kind) == "refused 2 at 12\n"
        && told(&all, b"", &kind[..11]) == "refused 3 at 0\n"
}
