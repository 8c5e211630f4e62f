//! How a recording is given to the playback program.

use std::collections::VecDeque;
use std::thread;
use std::time::Duration;

use crate::gen::heads::Headed;
use crate::gen::recordings::Record;
use crate::gen::rng::Rng;
use crate::model::book::{Book, Rule};
use crate::model::recording::Playback;
use crate::program::Program;

/// Programs that are started before they are asked for.
const AHEAD: usize = 2;
/// A pause in which the program can read what it was sent.
const PAUSE: Duration = Duration::from_micros(300);

/// Programs of one command line that wait for their input.
pub struct Ready {
    command: String,
    wait: Duration,
    programs: VecDeque<Program>,
}

impl Ready {
    pub fn new(command: &str, wait: Duration) -> Ready {
        Ready {
            command: command.into(),
            wait,
            programs: VecDeque::new(),
        }
    }

    /// A program that has read nothing.
    pub fn next(&mut self) -> Program {
        while self.programs.len() <= AHEAD {
            let program = Program::start(&self.command, None, self.wait);
            self.programs.push_back(program);
        }
        self.programs.pop_front().expect("a started program")
    }
}

/// A way to give a recording.
#[derive(Clone, Copy, PartialEq, Eq, Debug)]
pub enum Feed {
    /// All at once.
    Whole,
    /// Byte by byte.
    Bytes,
    /// In pieces of any size.
    Pieces,
}

/// All that the program prints for a recording, and whether it ends by itself.
pub fn fed(
    mut program: Program,
    recording: &[u8],
    feed: Feed,
    rng: &mut Rng,
    book: &mut Book,
) -> (Vec<u8>, bool) {
    let mut rest = recording;
    while !rest.is_empty() {
        let size = match feed {
            Feed::Whole => rest.len(),
            Feed::Bytes => 1,
            Feed::Pieces => {
                let most = rng.pick(&[2, 5, 20, 300, 9000]);
                rng.between(1, most)
            }
        };
        let (piece, later) = rest.split_at(size.min(rest.len()));
        program.send(piece);
        rest = later;
        if feed != Feed::Whole {
            thread::sleep(PAUSE);
        }
    }
    let several = recording.len() > 1;
    book.saw_if(several && feed == Feed::Bytes, Rule::PlayByByte);
    book.saw_if(several && feed == Feed::Pieces, Rule::PlayInPieces);
    program.end()
}

/// Gives a recording record by record, mostly with part of the next one: each record's answers,
/// and the refusal of a record that is there as a whole, must come before more is sent. What the program
/// prints until it is late or differs, and whether it ends by itself.
pub fn in_turn(
    mut program: Program,
    records: &[Record],
    rng: &mut Rng,
    book: &mut Book,
) -> (Vec<u8>, bool) {
    let mut model = Playback::new();
    let mut silent = Book::new(None);
    let mut got = Vec::new();
    // Bytes of the next record that are sent already.
    let mut sent = 0;
    for (at, record) in records.iter().enumerate() {
        let bytes = record.bytes();
        let mut text = bytes[sent..].to_vec();
        sent = 0;
        if let Some(next) = records.get(at + 1).filter(|_| at % 3 < 2) {
            let next = next.bytes();
            sent = rng.between(1, next.len() - 1);
            text.extend(&next[..sent]);
        }
        program.send(&text);
        let want = model.take(&bytes, false, &mut silent);
        let length = bytes.get(..2);
        let length = length.map(|two| u16::from_le_bytes([two[0], two[1]]));
        let whole = length.is_some_and(|length| bytes.len() >= 2 + usize::from(length));
        if model.is_over() && !whole {
            break;
        }
        let come = program.receive(want.len());
        got.extend(&come);
        if come != want {
            return (got, false);
        }
        book.saw_if(!want.is_empty(), Rule::PlayByRecord);
        book.saw_if(!want.is_empty() && sent > 0, Rule::PlayHalf);
        book.saw_if(model.is_over(), Rule::PlayToldOpen);
        if model.is_over() {
            break;
        }
    }
    let (rest, ended) = program.end();
    got.extend(rest);
    (got, ended)
}

/// Gives good records and the head of one that cannot be right, all at once or the head after the answers, there also
/// byte by byte, and nothing more: the refusal and the end of the output must come with the input open. What the program
/// prints until it is late or differs, and whether its output ends.
pub fn head_alone(mut program: Program, headed: &Headed, way: usize) -> (Vec<u8>, bool) {
    let Headed { good, head, .. } = headed;
    let mut got = Vec::new();
    if way % 3 == 0 {
        program.send(&[&good[..], head].concat());
    } else {
        program.send(good);
        let answers = Playback::new().take(good, false, &mut Book::new(None));
        got = program.receive(answers.len());
        if got != answers {
            return (got, false);
        }
        let size = if way % 3 == 1 { head.len() } else { 1 };
        for piece in head.chunks(size) {
            program.send(piece);
            thread::sleep(PAUSE);
        }
    }
    let (rest, ended) = program.rest();
    got.extend(rest);
    (got, ended)
}
