//! The papers' table of Intel HEX files, and other cases of the hexfile program.

use crate::gen::hexfiles::{own_text, TABLE};
use crate::model::book::Book;
use crate::model::hexfile::words::{hexfile, Said};
use crate::model::hexfile::{read, record, write, Reader, Refusal, IMAGE, LINE, TEXT};

/// Whether a file is refused by a number, of a line.
fn refuses(text: &str, number: u8, line: u64, book: &mut Book) -> bool {
    read(text.as_bytes(), book) == Err(Refusal { number, line })
}

/// Whether a file gives an image of FFh but for these bytes.
fn gives(text: &str, places: &[(usize, u8)], book: &mut Book) -> bool {
    let mut image = vec![0xFF; IMAGE];
    for (place, byte) in places {
        image[*place] = *byte;
    }
    read(text.as_bytes(), book) == Ok(image)
}

pub fn table(book: &mut Book) -> bool {
    TABLE.iter().all(|(text, answer)| match answer {
        Ok(last) => gives(text, &[(IMAGE - 1, *last)], book),
        Err(20) => refuses(text, 20, 2, book),
        Err(number) => refuses(text, *number, 1, book),
    })
}

/// What is written: 164 records of 16 bytes and the end record, all by hand for two images.
pub fn written_text(book: &mut Book) -> bool {
    let blank = write(&[0xFF; IMAGE], book).unwrap_or_default();
    let lines: Vec<&[u8]> = blank.split_inclusive(|sign| *sign == b'\n').collect();
    let ones = "F".repeat(32);
    let first = format!(":10000000{ones}00\n");
    let second = format!(":10001000{ones}F0\n");
    let last = format!(":100A3000{ones}C6\n");
    let counting: Vec<u8> = (0..IMAGE).map(|place| place as u8).collect();
    let counted = write(&counting, book).unwrap_or_default();
    blank.len() == TEXT
        && lines.len() == 165
        && lines[0] == first.as_bytes()
        && lines[1] == second.as_bytes()
        && lines[163] == last.as_bytes()
        && lines[164] == b":00000001FF\n"
        && counted.starts_with(b":10000000000102030405060708090A0B0C0D0E0F78\n")
        && read(&counted, book) == Ok(counting)
        && [0, 1, IMAGE - 1, IMAGE + 1, TEXT]
            .iter()
            .all(|size| write(&vec![0; *size], book) == Err(5))
}

/// Records in any order and of both cases; the later value, and FFh where there is none.
pub fn any_form(book: &mut Book) -> bool {
    let twice = ":02001000AABB89\r\n:01001100cc22\n:0000000000\r\n:00FFFF0002\n:00000001fF\r\n";
    let falling = ":01000500AA50\n:0100040000FB\n:01000500FFFB\n:00000001FF\n";
    let exact = ":020A3E000102B3\n:00000001FF\n";
    gives(twice, &[(0x10, 0xAA), (0x11, 0xCC)], book)
        && gives(falling, &[(4, 0)], book)
        && gives(exact, &[(IMAGE - 2, 1), (IMAGE - 1, 2)], book)
}

/// Of several faults of a record the first in the papers' order decides, and of several records the first.
pub fn refusals_in_order(book: &mut Book) -> bool {
    let end = ":00000001FF\n";
    // the count before the check byte, the type and the address
    refuses(":02000000AA54\n", 16, 1, book)
        && refuses(":02000000AA55\n", 16, 1, book)
        && refuses(":02FFFF02AA00\n", 16, 1, book)
        // an end record's count and address before its check byte
        && refuses(":00010001FE\n", 16, 1, book)
        && refuses(":00000101FF\n", 16, 1, book)
        && refuses(":01000001AA54\n", 16, 1, book)
        && refuses(":01000001AA55\n", 16, 1, book)
        // the check byte before the type and the address, the type before the address
        && refuses(":00000002FF\n", 17, 1, book)
        && refuses(":010A400000B6\n", 17, 1, book)
        && refuses(":010A400200B3\n", 18, 1, book)
        // the first record at fault
        && refuses(":00000001FE\n:00000002FE\n", 17, 1, book)
        && refuses(&format!(":0000000000\n:00000002FE\nx\n{end}"), 18, 2, book)
        && refuses(":0000000000\n:00000002FE", 16, 2, book)
        && refuses("", 20, 1, book)
        && refuses(":0000000000\n", 20, 2, book)
        && refuses(&format!(":0000000000\n{end}x"), 20, 3, book)
}

/// Addresses do not run round, and a record without data has none.
pub fn addresses(book: &mut Book) -> bool {
    let mut text_of = |address: u16, data: usize| {
        let bytes = record(address, 0, &vec![0; data]);
        let digits: String = bytes.iter().map(|byte| format!("{byte:02X}")).collect();
        let text = format!(":{digits}\n:00000001FF\n");
        read(text.as_bytes(), book)
            .map_err(|refusal| refusal.number)
            .err()
    };
    [(0x0A3F, 1), (0x0941, 255), (0x0A40, 0), (0xFFFF, 0)]
        .iter()
        .all(|(address, data)| text_of(*address, *data).is_none())
        && [
            (0x0A40, 1),
            (0x0A3F, 2),
            (0x0942, 255),
            (0xFF01, 255),
            (0xFFFF, 1),
            (0xFFFF, 2),
            (0xFFFF, 255),
        ]
        .iter()
        .all(|(address, data)| text_of(*address, *data) == Some(19))
}

/// A line is judged when its LF is there, or its 523rd character, and text after the end record at its first.
pub fn judged_when(book: &mut Book) -> bool {
    let mut at = |text: &[u8]| {
        let mut reader = Reader::new(book);
        text.iter()
            .position(|sign| reader.take(&[*sign], book).is_some())
    };
    at(&[b'x'; LINE - 1]).is_none()
        && at(&[b'x'; LINE]) == Some(LINE - 1)
        && at(b":00000001FE").is_none()
        && at(b":00000001FE\n") == Some(11)
        && at(b":00000001FF\n").is_none()
        && at(b":00000001FF\n\n") == Some(12)
        && at(b"\n") == Some(0)
}

/// What the program says.
pub fn program_words(book: &mut Book) -> bool {
    let mut said = |words: &[&str], given: &[u8]| {
        let words: Vec<Vec<u8>> = words.iter().map(|word| word.as_bytes().to_vec()).collect();
        hexfile(&words, given, book)
    };
    let image = [0x3C; IMAGE];
    let Said { printed, errors } = said(&["read", "a file"], b":0000000000\n\n");
    let refused = printed == b"refused 16\n" && errors.starts_with(b"hexfile: line 2: ");
    let Said { printed, errors } = said(&["write"], &image[1..]);
    let short = printed == b"refused 5\n" && errors.starts_with(b"hexfile: ");
    let written = said(&["write"], &image);
    let back = said(&["read"], &written.printed);
    let usage = said(&["read", "a", "b"], b"");
    refused
        && short
        && written.printed == own_text(&image)
        && written.errors.is_empty()
        && back.printed == image
        && back.errors.is_empty()
        && usage.printed.is_empty()
        && usage.errors.starts_with(b"usage: hexfile")
}
