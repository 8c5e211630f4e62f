//! The hexfile program: its words and what it says.

use super::{read, write, Refusal, IMAGE};
use crate::model::book::{Book, Rule, Slip};
pub use crate::model::setpoint::words::Said;

/// The line for words that the program does not know.
const USAGE: &str = "usage: hexfile read [FILE] | write [FILE]\n";
/// The program's words.
const WORDS: [&[u8]; 2] = [b"read", b"write"];

/// What the program is asked for.
#[derive(Clone, Copy, PartialEq, Eq, Debug)]
pub enum Verb {
    /// To read a file into an image.
    Read,
    /// To write an image into a file.
    Write,
}

/// What is asked for, and the file, or none for standard input.
pub type Command = (Verb, Option<Vec<u8>>);

/// A right word, but for slips that take others for it.
fn word_taken(word: &[u8], book: &Book) -> Vec<u8> {
    let mut right = WORDS.iter();
    let found = match word {
        _ if WORDS.contains(&word) => None,
        _ if book.slips(Slip::HexWordCapitals) => return word.to_ascii_lowercase(),
        _ if book.slips(Slip::HexWordBegun) => right.find(|right| word.starts_with(right)),
        [_, ..] if book.slips(Slip::HexWordPart) => right.find(|right| right.starts_with(word)),
        _ => None,
    };
    found.map_or(word, |right| right).to_vec()
}

/// What the words ask for, or nothing where they are not the program's.
pub fn command_of(words: &[Vec<u8>], book: &mut Book) -> Option<Command> {
    note_words(words, book);
    let Some((word, more)) = words.split_first() else {
        let reads = book.slips(Slip::HexNoWordReads);
        return reads.then_some((Verb::Read, None));
    };
    let verb = match &word_taken(word, book)[..] {
        b"read" => Verb::Read,
        b"write" => Verb::Write,
        _ if book.slips(Slip::HexNameReads) && more.is_empty() => {
            return Some((Verb::Read, Some(word.clone())));
        }
        _ => return None,
    };
    let name = match more {
        [] => None,
        [_] if book.slips(Slip::HexFilePassed) => None,
        [name] if name == b"-" && book.slips(Slip::HexDash) => None,
        [name] if name.is_empty() && book.slips(Slip::HexNameEmpty) => None,
        [name] if name.starts_with(b"-") && book.slips(Slip::HexFlags) => return None,
        [name] => Some(name.clone()),
        [name, ..] if book.slips(Slip::HexMoreTaken) => Some(name.clone()),
        _ => return None,
    };
    Some((verb, name))
}

/// Why words are not the program's.
fn note_words(words: &[Vec<u8>], book: &mut Book) {
    let Some((word, more)) = words.split_first() else {
        return book.saw(Rule::HexNoWord);
    };
    if WORDS.contains(&&word[..]) {
        book.saw_if(more.len() > 1, Rule::HexFiles);
        return;
    }
    let small = word.to_ascii_lowercase();
    book.saw(match word {
        _ if WORDS.contains(&&small[..]) => Rule::HexWordCapitals,
        _ if WORDS.iter().any(|right| word.starts_with(right)) => Rule::HexWordLonger,
        _ if WORDS.iter().any(|right| right.starts_with(word)) => Rule::HexWordShorter,
        _ => Rule::HexWordOther,
    });
}

/// All that the program says to words and to what it is given, as a file or as standard input.
pub fn hexfile(words: &[Vec<u8>], given: &[u8], book: &mut Book) -> Said {
    match command_of(words, book) {
        None => usage(book),
        Some((Verb::Read, _)) => {
            let answer = read(given, book);
            read_said(answer, book)
        }
        Some((Verb::Write, _)) => {
            let answer = write(given, book);
            write_said(answer, book)
        }
    }
}

/// The usage line.
pub fn usage(book: &Book) -> Said {
    let line = USAGE.as_bytes().to_vec();
    let (printed, errors) = match line {
        _ if book.slips(Slip::HexUsageNone) => (Vec::new(), Vec::new()),
        _ if book.slips(Slip::HexUsageOut) => (line, Vec::new()),
        _ if book.slips(Slip::HexUsageLines) => (Vec::new(), USAGE.repeat(2).into_bytes()),
        _ => (Vec::new(), line),
    };
    Said { printed, errors }
}

/// What is said of a file that was read.
pub fn read_said(answer: Result<Vec<u8>, Refusal>, book: &Book) -> Said {
    let refusal = match answer {
        Ok(image) => {
            return Said {
                printed: raw(image, book),
                errors: told_well(book),
            };
        }
        Err(refusal) => refusal,
    };
    let Refusal { number, line } = refusal;
    let what = match number {
        16 => "a character or a length is out of form",
        17 => "the check byte is wrong",
        18 => "the type is neither 00 nor 01",
        19 => "a data byte lies above 0A3Fh",
        _ => "the file has no end record, or text after it",
    };
    let words = match number {
        _ if book.slips(Slip::HexWordsNone) => String::new(),
        _ if book.slips(Slip::HexWordsEmpty) => format!("hexfile: line {line}: \n"),
        _ if book.slips(Slip::HexWordsOpen) => format!("hexfile: line {line}: {what}"),
        _ if book.slips(Slip::HexWordsLines) => format!("hexfile: line {line}: {what}\nrefused\n"),
        _ if book.slips(Slip::HexWordsNoLine) => format!("hexfile: {what}\n"),
        _ if book.slips(Slip::HexWordsNoName) => format!("line {line}: {what}\n"),
        _ => format!("hexfile: line {line}: {what}\n"),
    };
    refused(number, words, book)
}

/// What is said of an image that was to be written.
pub fn write_said(answer: Result<Vec<u8>, u8>, book: &Book) -> Said {
    match answer {
        Ok(printed) => Said {
            printed,
            errors: told_well(book),
        },
        Err(number) => {
            let words = match number {
                _ if book.slips(Slip::HexWords5None) => "",
                _ if book.slips(Slip::HexWords5Line) => "hexfile: line 1: not 2,624 bytes\n",
                _ => "hexfile: the image has not 2,624 bytes\n",
            };
            refused(number, words.into(), book)
        }
    }
}

/// What standard error has where all went well.
fn told_well(book: &Book) -> Vec<u8> {
    match book.slips(Slip::HexTalks) {
        true => b"hexfile: done\n".to_vec(),
        false => Vec::new(),
    }
}

/// An image that was read.
fn raw(mut image: Vec<u8>, book: &Book) -> Vec<u8> {
    if book.slips(Slip::HexImageHex) {
        let digits = image.iter().map(|byte| format!("{byte:02X}"));
        return digits.collect::<String>().into_bytes();
    }
    if book.slips(Slip::HexImageLine) {
        image.push(b'\n');
    }
    if book.slips(Slip::HexImageCut) {
        let end = image.iter().rposition(|byte| *byte != 0xFF);
        image.truncate(end.map_or(0, |end| end + 1));
    }
    image
}

/// A refusal, and what standard error says of it.
fn refused(number: u8, words: String, book: &Book) -> Said {
    let line = match number {
        _ if book.slips(Slip::HexRefusedAt) => format!("refused {number} at 1\n"),
        _ if book.slips(Slip::HexRefusedOpen) => format!("refused {number}"),
        _ if book.slips(Slip::HexRefusedNone) => String::new(),
        _ => format!("refused {number}\n"),
    };
    let [mut printed, mut errors] = [line, words].map(String::into_bytes);
    if book.slips(Slip::HexRefusedError) {
        errors = [std::mem::take(&mut printed), errors].concat();
    } else if book.slips(Slip::HexRefusedTwice) {
        errors = [&printed[..], &errors].concat();
    } else if book.slips(Slip::HexWordsOut) {
        printed.extend(std::mem::take(&mut errors));
    } else if book.slips(Slip::HexRefusedImage) {
        printed = [vec![0xFF; IMAGE], printed].concat();
    }
    Said { printed, errors }
}
