//! The model in the place of the round program.

use std::io::{self, Read, Write};

use super::words::{asked_of, said, usage, Said, OPTIONS};
use crate::model::book::{Book, Slip};
use crate::model::programs::open_file;

/// Serves the program; its exit status.
pub fn serve(words: &[Vec<u8>], book: &mut Book) -> u8 {
    let Some(asked) = asked_of(words, book) else {
        return serve_usage(words, book);
    };
    let mut card = None;
    let sooner = [Slip::RoundCardFirst, Slip::RoundCardTold];
    if sooner.iter().any(|slip| book.slips(*slip)) {
        card = read_card(book).ok();
    }
    let mut file = None;
    if let Some(name) = &asked.images {
        match read_file(name, book) {
            Ok(bytes) => file = Some(bytes),
            Err(_) if book.slips(Slip::RoundUnreadOnes) => {}
            Err(_) if book.slips(Slip::RoundUnreadEmpty) => file = Some(Vec::new()),
            Err(error) => {
                if let (Some(card), true) = (&card, book.slips(Slip::RoundCardTold)) {
                    let told = said(&asked, None, card, book);
                    if told.printed.starts_with(b"refused") {
                        print(&told, book);
                        return 0;
                    }
                }
                tell(name, &error, book);
                if !book.slips(Slip::RoundUnreadOn) {
                    return u8::from(book.slips(Slip::RoundStatusUnread));
                }
            }
        }
    }
    let card = match card.map_or_else(|| read_card(book), Ok) {
        Ok(card) => card,
        Err(error) => {
            tell(b"standard input", &error, book);
            return u8::from(book.slips(Slip::RoundStatusUnread));
        }
    };
    let said = said(&asked, file.as_deref(), &card, book);
    print(&said, book);
    let refused = said.printed.windows(7).any(|part| part == b"refused");
    u8::from(refused && book.slips(Slip::RoundStatus))
}

/// What is done where the words are not the program's.
fn serve_usage(words: &[Vec<u8>], book: &mut Book) -> u8 {
    if book.slips(Slip::RoundUsageWaits) {
        let _ = io::stdin().lock().read_to_end(&mut Vec::new());
    }
    let named = words.iter().position(|word| word == OPTIONS[0]);
    let name = named.and_then(|place| words.get(place + 1));
    if let (Some(name), true) = (name, book.slips(Slip::RoundFileFirst)) {
        if let Err(error) = read_file(name, book) {
            tell(name, &error, book);
            return 0;
        }
    }
    print(&usage(book), book);
    if book.slips(Slip::RoundStatusUsage) {
        2
    } else {
        0
    }
}

/// Tells what cannot be done, and why.
fn tell(name: &[u8], error: &io::Error, book: &Book) {
    let why = error.to_string();
    let why = why.split(" (os error").next().unwrap_or(&why);
    let line = match () {
        () if book.slips(Slip::RoundUnreadSilent) => return,
        () if book.slips(Slip::RoundUnreadWords) => [name, b": cannot be read\n"].concat(),
        () if book.slips(Slip::RoundUnreadName) => format!("{why}\n").into_bytes(),
        () if book.slips(Slip::RoundUnreadProgram) => {
            [b"round: ", name, b": ", why.as_bytes(), b"\n"].concat()
        }
        () => [name, b": ", why.as_bytes(), b"\n"].concat(),
    };
    let _ = match book.slips(Slip::RoundUnreadOut) {
        true => io::stdout().write_all(&line),
        false => io::stderr().write_all(&line),
    };
}

/// Puts what is said where it belongs.
fn print(said: &Said, book: &Book) {
    let _ = io::stderr().write_all(&said.errors);
    let mut output = io::stdout().lock();
    let written = output
        .write_all(&said.printed)
        .and_then(|()| output.flush());
    if let Err(error) = written {
        if !book.slips(Slip::RoundWritesOn) {
            tell(b"standard output", &error, book);
        }
    }
}

/// All of an input.
fn read_all(input: &mut dyn Read, once: bool, ends: bool) -> io::Result<Vec<u8>> {
    let mut buffer = [0; 65_536];
    let mut all = Vec::new();
    loop {
        let count = match input.read(&mut buffer) {
            Err(_) if ends => 0,
            read => read?,
        };
        all.extend(&buffer[..count]);
        if count == 0 || once {
            return Ok(all);
        }
    }
}

/// The bytes of the file of images.
fn read_file(name: &[u8], book: &Book) -> io::Result<Vec<u8>> {
    let [once, ends] = [Slip::RoundFileOnce, Slip::RoundFileEnds].map(|slip| book.slips(slip));
    if name == b"-" && book.slips(Slip::RoundDash) {
        return read_all(&mut io::stdin().lock(), once, ends);
    }
    let mut file = open_file(name)?;
    read_all(&mut file, once, ends)
}

/// The bytes of the card.
fn read_card(book: &Book) -> io::Result<Vec<u8>> {
    let [once, ends] = [Slip::RoundCardOnce, Slip::RoundCardEnds].map(|slip| book.slips(slip));
    read_all(&mut io::stdin().lock(), once, ends)
}
