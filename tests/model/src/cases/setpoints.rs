//! The papers' worked pages, and other cases of the setpoint program.

use crate::gen::pages::{READERS, WORKED};
use crate::model::book::Book;
use crate::model::setpoint::words::{setpoint, Said};
use crate::model::setpoint::PAGE;

/// A page that begins with these bytes.
fn page(begin: &[u8]) -> Vec<u8> {
    let mut page = vec![0xA5; PAGE];
    page[..begin.len()].copy_from_slice(begin);
    page
}

/// What is said to words, given with spaces between them, and input.
fn said(words: &str, input: &[u8], book: &mut Book) -> Said {
    let words: Vec<Vec<u8>> = words.split(' ').map(|word| word.into()).collect();
    setpoint(&words, input, book)
}

/// Whether just this line is printed.
fn prints(words: &str, input: &[u8], line: &str, book: &mut Book) -> bool {
    let Said { printed, errors } = said(words, input, book);
    printed == format!("{line}\n").into_bytes() && errors.is_empty()
}

/// Whether just these bytes are printed.
fn writes(words: &str, input: &[u8], bytes: &[u8], book: &mut Book) -> bool {
    let Said { printed, errors } = said(words, input, book);
    printed == bytes && errors.is_empty()
}

pub fn worked_pages(book: &mut Book) -> bool {
    WORKED.iter().all(|(begin, lines)| {
        let page = page(begin);
        let mut readers = READERS.iter().zip(lines);
        readers.all(|(reader, line)| prints(reader, &page, line, book))
    })
}

/// Every byte of kind 101 and every pair of kind 102.
pub fn every_body(book: &mut Book) -> bool {
    let mut given = |begin: &[u8], tenths: Option<u32>, own: &str, other: &str| {
        let page = page(begin);
        let line = tenths.map_or("refused 15".into(), |tenths| tenths.to_string());
        prints("read", &page, &line, book)
            && prints(own, &page, &line, book)
            && prints(other, &page, "refused 13", book)
    };
    let bytes = (0..=255).all(|byte: u8| {
        let tenths = (10..36).contains(&byte).then(|| 10 * u32::from(byte));
        given(&[3, 0, 101, 0, byte], tenths, "read101", "read102")
    });
    let pairs = (0..=0xFFFF).all(|pair: u16| {
        let tenths = (180..271).contains(&pair).then(|| u32::from(pair));
        let [low, high] = pair.to_le_bytes();
        given(&[4, 0, 102, 0, low, high], tenths, "read102", "read101")
    });
    bytes && pairs
}

/// Of two things at fault the first in the papers' order decides.
pub fn refusals_in_order(book: &mut Book) -> bool {
    let long = [page(&[3, 0, 101, 0, 21]), vec![0]].concat();
    let short = &page(&[3, 0, 101, 0, 21])[..PAGE - 1];
    prints("read", &long, "refused 14", book)
        && prints("read", short, "refused 14", book)
        && prints("read101", &[], "refused 14", book)
        // the page before the kind, and before the range
        && prints("read102", &long, "refused 14", book)
        && prints("write101 99", &long, "refused 14", book)
        // the kind, in both bytes, before the length
        && prints("read", &page(&[3, 0, 0x65, 1, 21]), "refused 13", book)
        && prints("read", &page(&[9, 0, 0, 0x66, 21]), "refused 13", book)
        && prints("read101", &page(&[3, 0, 0x66, 0, 0xD7, 0]), "refused 13", book)
        // the length, in both bytes, before the range
        && prints("read", &page(&[3, 1, 101, 0, 21]), "refused 14", book)
        && prints("read101", &page(&[0, 3, 101, 0, 99]), "refused 14", book)
        && prints("read102", &page(&[3, 0, 102, 0, 0xFF, 0xFF]), "refused 14", book)
        && prints("read", &page(&[5, 0, 102, 0, 0xD7, 0]), "refused 14", book)
}

/// A writer puts its record over whatever is there, and leaves the rest.
pub fn written_pages(book: &mut Book) -> bool {
    let mut after = [vec![3, 0, 101, 0, 35], vec![0xFF; PAGE - 5]].concat();
    let degrees = writes("write101 35", &[0xFF; PAGE], &after, book)
        && prints("read101", &after, "350", book)
        && prints("read", &after, "350", book)
        && prints("read102", &after, "refused 13", book);
    let before = page(&[0; 6]);
    after = page(&[4, 0, 102, 0, 0x0E, 1]);
    degrees
        && writes("write102 270", &before, &after, book)
        && prints("read102", &after, "270", book)
        && prints("read", &after, "270", book)
        && prints("read101", &after, "refused 13", book)
        && prints("write102 271", &before, "refused 15", book)
}

/// A number of any length is judged as it stands.
pub fn long_values(book: &mut Book) -> bool {
    let page = page(&[]);
    let [first, last] = [10, 35].map(|byte| [&[3, 0, 101, 0, byte], &page[5..]].concat());
    let zeros = "0".repeat(5000);
    let refused = [
        "9",
        "36",
        "-10",
        "-0",
        "210",
        "266",
        "65546",
        "4294967306",
        "18446744073709551626",
        "340282366920938463463374607431768211466",
        "-18446744073709551606",
        "99999999999",
        &format!("1{zeros}10"),
        &format!("-{zeros}10"),
    ];
    writes("write101 10", &page, &first, book)
        && writes(&format!("write101 {zeros}35"), &page, &last, book)
        && refused
            .iter()
            .all(|value| prints(&format!("write101 {value}"), &page, "refused 15", book))
}

/// What is no number, and words that the program does not have.
pub fn other_words(book: &mut Book) -> bool {
    let page = page(&[3, 0, 101, 0, 21]);
    let mut usage = |words: &str| {
        let Said { printed, errors } = said(words, &page, book);
        printed.is_empty() && errors.starts_with(b"usage: setpoint")
    };
    let words = [
        "",
        "READ",
        "read103",
        "read 101",
        "write",
        "write101",
        "write101 21 21",
    ];
    let values = ["", "-", "--21", "+21", "21.0", "0x15", "1e1", "21x", "٣"];
    words.iter().all(|words| usage(words))
        && values
            .iter()
            .all(|value| usage(&format!("write101 {value}")))
}
