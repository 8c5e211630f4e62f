//! The model in the place of the hexfile program.

use std::io::{self, Read, Write};

use super::words::{command_of, read_said, usage, write_said, Command, Said, Verb};
use super::{write, Reader, IMAGE};
use crate::model::book::{Book, Slip};
use crate::model::programs::open_file;

/// Serves the program; its exit status.
pub fn serve(words: &[Vec<u8>], book: &mut Book) -> u8 {
    let command = command_of(words, book);
    let Some((verb, name)) = command else {
        if book.slips(Slip::HexUsageWaits) {
            let _ = io::stdin().lock().read_to_end(&mut Vec::new());
        }
        print(&usage(book), book);
        return if book.slips(Slip::HexStatusUsage) {
            2
        } else {
            0
        };
    };
    let said = match told(&(verb, name.clone()), book) {
        Ok(said) => said,
        Err(error) => {
            let name = name.filter(|_| !book.slips(Slip::HexNameLost));
            let name = name.unwrap_or(b"standard input".to_vec());
            tell(&name, &error, book);
            return u8::from(book.slips(Slip::HexStatusUnread));
        }
    };
    print(&said, book);
    if book.slips(Slip::HexReadsOn) {
        let _ = io::stdin().lock().read_to_end(&mut Vec::new());
    }
    let refused = said.printed.starts_with(b"refused");
    u8::from(refused && book.slips(Slip::HexStatus))
}

/// Tells what cannot be done, and why.
fn tell(name: &[u8], error: &io::Error, book: &Book) {
    let why = error.to_string();
    let why = why.split(" (os error").next().unwrap_or(&why);
    let line = match () {
        () if book.slips(Slip::HexUnreadSilent) => return,
        () if book.slips(Slip::HexUnreadWords) => [name, b": cannot be read\n"].concat(),
        () if book.slips(Slip::HexUnreadName) => format!("{why}\n").into_bytes(),
        () => [name, b": ", why.as_bytes(), b"\n"].concat(),
    };
    let _ = io::stderr().write_all(&line);
}

/// Puts what is said where it belongs.
fn print(said: &Said, book: &Book) {
    let _ = io::stderr().write_all(&said.errors);
    let mut output = io::stdout().lock();
    let written = output
        .write_all(&said.printed)
        .and_then(|()| output.flush());
    if let Err(error) = written {
        if !book.slips(Slip::HexWritesOn) {
            tell(b"standard output", &error, book);
        }
    }
}

/// What the program says, or why it cannot read.
fn told((verb, name): &Command, book: &mut Book) -> io::Result<Said> {
    let opened: io::Result<Box<dyn Read>> = match name {
        Some(name) => open_file(name).map(|file| Box::new(file) as _),
        None => Ok(Box::new(io::stdin().lock())),
    };
    let input = match opened {
        Err(_) if book.slips(Slip::HexUnreadEmpty) => Box::new(io::empty()),
        opened => opened?,
    };
    match verb {
        Verb::Read => read_all(input, book),
        Verb::Write => write_all(input, book),
    }
}

/// One read; how many bytes it gave.
fn read_some(input: &mut dyn Read, buffer: &mut [u8], book: &Book) -> io::Result<usize> {
    match input.read(buffer) {
        Err(_) if book.slips(Slip::HexReadEnds) => Ok(0),
        read => read,
    }
}

/// Reads a file.
fn read_all(mut input: Box<dyn Read>, book: &mut Book) -> io::Result<Said> {
    let mut reader = Reader::new(book);
    let mut buffer = [0; 4096];
    let mut all = 0;
    loop {
        let count = read_some(&mut input, &mut buffer, book)?;
        let piece = &buffer[..count];
        all += count;
        if count == 0 || all > 65_536 && book.slips(Slip::HexFirstPart) {
            let answer = reader.end(book);
            return Ok(read_said(answer, book));
        }
        reader.slip_between(piece, book);
        if let Some(refusal) = reader.take(piece, book) {
            return Ok(read_said(Err(refusal), book));
        }
        let early = book.slips(Slip::HexEarly) && reader.ended;
        if early || book.slips(Slip::HexReadOnce) {
            let answer = reader.end(book);
            return Ok(read_said(answer, book));
        }
    }
}

/// Writes an image; of a longer one at most one byte more is read.
fn write_all(mut input: Box<dyn Read>, book: &mut Book) -> io::Result<Said> {
    let mut buffer = [0; 4096];
    let mut image = Vec::new();
    let on = [
        Slip::HexWrite2625,
        Slip::HexWriteReadsOn,
        Slip::HexWriteTwo,
        Slip::HexWriteTimes,
    ];
    let most = match on.iter().any(|slip| book.slips(*slip)) {
        true => usize::MAX,
        false => IMAGE + 1,
    };
    while image.len() < most {
        let room = buffer.len().min(most - image.len());
        let count = read_some(&mut input, &mut buffer[..room], book)?;
        image.extend(&buffer[..count]);
        let once = book.slips(Slip::HexWriteOnce);
        let whole = book.slips(Slip::HexWriteAtOnce) && image.len() == IMAGE;
        if count == 0 || once || whole {
            break;
        }
    }
    let answer = write(&image, book);
    Ok(write_said(answer, book))
}
