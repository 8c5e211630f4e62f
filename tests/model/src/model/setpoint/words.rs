//! The setpoint program: its words and what it says.

use super::value::{note_no_number, number_of, Number};
use super::{page_of, read, write, DEGREES, PAGE, TENTHS};
use crate::model::book::{Book, Rule, Slip};

/// The line for words that the program does not know.
const USAGE: &str =
    "usage: setpoint read | read101 | read102 | write101 DEGREES | write102 TENTHS\n";
/// The program's words.
const WORDS: [&[u8]; 5] = [b"read", b"read101", b"read102", b"write101", b"write102"];
/// Both kinds.
const EITHER: &[u16] = &[DEGREES, TENTHS];

/// What a program says: on standard output and on standard error.
#[derive(Clone, PartialEq, Eq, Debug, Default)]
pub struct Said {
    pub printed: Vec<u8>,
    pub errors: Vec<u8>,
}

/// What the program is asked for.
pub enum Command {
    /// To read a record of one of these kinds.
    Read(&'static [u16]),
    /// To write a record of this kind.
    Write(u16, Number),
}

/// A right word, but for slips that take others for it.
fn word_taken(word: &[u8], book: &Book) -> Vec<u8> {
    let mut right = WORDS.iter().rev();
    let found = match word {
        _ if WORDS.contains(&word) => None,
        _ if book.slips(Slip::SetCapitals) => return word.to_ascii_lowercase(),
        _ if book.slips(Slip::SetWordBegun) => right.find(|right| word.starts_with(right)),
        [_, ..] if book.slips(Slip::SetWordPart) => right.find(|right| right.starts_with(word)),
        _ => None,
    };
    found.map_or(word, |right| right).to_vec()
}

/// What the words ask for, or nothing where they are not the program's.
pub fn command_of(words: &[Vec<u8>], book: &mut Book) -> Option<Command> {
    note_words(words, book);
    let Some((word, more)) = words.split_first() else {
        let reads = book.slips(Slip::SetNoWordReads);
        return reads.then_some(Command::Read(EITHER));
    };
    let word = word_taken(word, book);
    let kinds = match &word[..] {
        b"read" => EITHER,
        b"read101" | b"write101" => &[DEGREES],
        b"read102" | b"write102" => &[TENTHS],
        _ => return None,
    };
    if word.starts_with(b"read") {
        let alone = more.is_empty() || book.slips(Slip::SetMoreTaken);
        return alone.then_some(Command::Read(kinds));
    }
    let value = match more {
        [value] => value,
        [value, ..] if book.slips(Slip::SetValuesTaken) => value,
        [] if book.slips(Slip::SetNoValue15) => &b"0".to_vec(),
        _ => return None,
    };
    let number = number_of(value, book)?;
    Some(Command::Write(kinds[0], number))
}

/// Why words are not the program's.
fn note_words(words: &[Vec<u8>], book: &mut Book) {
    let Some((word, more)) = words.split_first() else {
        return book.saw(Rule::SetNoWord);
    };
    if !WORDS.contains(&&word[..]) {
        let small = word.to_ascii_lowercase();
        return book.saw(match word {
            _ if WORDS.contains(&&small[..]) => Rule::SetWordCapitals,
            _ if WORDS.iter().any(|right| word.starts_with(right)) => Rule::SetWordLonger,
            _ if WORDS.iter().any(|right| right.starts_with(word)) => Rule::SetWordShorter,
            _ => Rule::SetWordOther,
        });
    }
    let value = match more {
        [] if word.starts_with(b"read") => return,
        _ if word.starts_with(b"read") => return book.saw(Rule::SetReaderMore),
        [] => return book.saw(Rule::SetNoValue),
        [value] => value,
        _ => return book.saw(Rule::SetValueMore),
    };
    if number_of(value, book).is_none() {
        let kind = if word == b"write101" { DEGREES } else { TENTHS };
        note_no_number(value, kind, book);
    }
}

/// What the program says to a command and its input.
pub fn said(command: Option<&Command>, input: &[u8], book: &mut Book) -> Said {
    let page = page_of(input, book);
    let answer = match command {
        None => return usage(book),
        Some(Command::Read(kinds)) => read(&page, kinds, book).map(|tenths| shown(tenths, book)),
        Some(Command::Write(kind, number)) => {
            let value = number.judged(*kind, book);
            let written = write(&page, *kind, value, book);
            if page.len() == PAGE {
                number.note(*kind, written.is_ok(), book);
            }
            match written {
                Ok(after) => Ok(raw(after, book)),
                Err(refusal) if book.slips(Slip::SetRefusedPage) => {
                    let line = format!("refused {refusal}\n");
                    Ok([line.as_bytes(), &page].concat())
                }
                Err(refusal) => Err(refusal),
            }
        }
    };
    match answer {
        Ok(printed) => Said {
            printed,
            errors: Vec::new(),
        },
        Err(refusal) => refused(refusal, book),
    }
}

/// All that the program says to words and input.
pub fn setpoint(words: &[Vec<u8>], input: &[u8], book: &mut Book) -> Said {
    let command = command_of(words, book);
    said(command.as_ref(), input, book)
}

/// The usage line.
fn usage(book: &Book) -> Said {
    let line = USAGE.as_bytes().to_vec();
    let (printed, errors) = match line {
        _ if book.slips(Slip::SetUsageNone) => (Vec::new(), Vec::new()),
        _ if book.slips(Slip::SetUsageOut) => (line, Vec::new()),
        _ if book.slips(Slip::SetUsageLines) => (Vec::new(), USAGE.repeat(2).into_bytes()),
        _ => (Vec::new(), line),
    };
    Said { printed, errors }
}

/// The line of tenths.
fn shown(tenths: i128, book: &Book) -> Vec<u8> {
    let line = match tenths {
        _ if book.slips(Slip::SetNoLine) => format!("{tenths}"),
        _ if book.slips(Slip::SetPoint) => format!("{}.{}\n", tenths / 10, tenths % 10),
        _ if book.slips(Slip::SetPlus) => format!("{tenths:+}\n"),
        _ => format!("{tenths}\n"),
    };
    line.into_bytes()
}

/// A page that was written.
fn raw(mut page: Vec<u8>, book: &Book) -> Vec<u8> {
    if book.slips(Slip::SetWroteHex) {
        return page
            .iter()
            .map(|byte| format!("{byte:02X}"))
            .collect::<String>()
            .into_bytes();
    }
    if book.slips(Slip::SetWroteLine) {
        page.push(b'\n');
    }
    page
}

/// The line of a refusal.
fn refused(refusal: u8, book: &Book) -> Said {
    let line = match refusal {
        _ if book.slips(Slip::SetRefusedAt) => format!("refused {refusal} at 0\n"),
        _ if book.slips(Slip::SetRefusedOpen) => format!("refused {refusal}"),
        _ => format!("refused {refusal}\n"),
    };
    let line = line.into_bytes();
    let (printed, errors) = match line {
        _ if book.slips(Slip::SetRefusedError) => (Vec::new(), line),
        _ if book.slips(Slip::SetRefusedTwice) => (line.clone(), line),
        _ => (line, Vec::new()),
    };
    Said { printed, errors }
}
