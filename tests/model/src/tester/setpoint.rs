//! The setpoint program on pages of every sort, values of any length, and words that it does not have.

use std::fs::{self, File};
use std::process::Stdio;
use std::thread;
use std::time::Duration;

use super::playback::shown_bytes;
use super::steps::fits_usage;
use super::{seed_for, Tester};
use crate::gen::pages::{self, good, word_for, Trial};
use crate::gen::rng::Rng;
use crate::gen::values::{self, no_numbers, other_words, Written};
use crate::model::book::{Book, Rule};
use crate::model::setpoint::words::{setpoint, Said};
use crate::model::setpoint::{DEGREES, PAGE, TENTHS};
use crate::program::Program;

/// Pages of any sort in each round.
const ANY: usize = 200;
/// The program's words, each with a value where it asks for one.
pub(super) const ALL: [&[&str]; 5] = [
    &["read"],
    &["read101"],
    &["read102"],
    &["write101", "21"],
    &["write102", "210"],
];
/// A pause in which the program can read what it was sent.
const PAUSE: Duration = Duration::from_millis(1);
/// A pause in which a program that does not wait for more would answer.
const LATE: Duration = Duration::from_millis(60);
/// From this size on input is sent while the output is awaited.
const FAR: usize = 60_000;
/// Most characters of a word that are shown.
const SHOWN: usize = 60;

/// A way to give the input.
#[derive(Clone, Copy, PartialEq, Eq, Debug)]
enum Way {
    /// All at once.
    Whole,
    /// Byte by byte.
    Bytes,
    /// In pieces of a few bytes.
    Pieces,
    /// The last byte late.
    LastLate,
    /// The end late.
    EndLate,
    /// Again and again, without end.
    Endless,
    /// From a device that gives zeros without end.
    Zeros,
    /// Nothing, and left open.
    Open,
    /// A directory, which cannot be read.
    Folder,
}

/// A group of trials, from a seed.
type Group = fn(&mut Rng) -> Vec<Trial>;

/// The groups of trials that are given all at once.
const GROUPS: [Group; 5] = [
    values::given_values,
    pages::heads,
    pages::pairs,
    pages::sizes,
    pages::every_byte,
];

impl Tester {
    /// Everything that the setpoint program is tried on. Most starts are of the linked program.
    pub(super) fn run_setpoint(&mut self, command: &str, linked: &str, book: &mut Book) {
        let seed = self.options.seed;
        for (number, command) in [command, linked].into_iter().enumerate() {
            let mut rng = seed_for(seed, 14, number);
            for trial in pages::worked(&mut rng) {
                self.try_trial(command, &trial, Way::Whole, book);
            }
        }
        self.run_usage(linked, &mut seed_for(seed, 15, 0), book);
        self.run_ways(linked, &mut seed_for(seed, 16, 0), book);
        self.run_ends(command, linked);
        for (number, group) in GROUPS.iter().enumerate() {
            let mut rng = seed_for(seed, 17, number);
            for trial in group(&mut rng) {
                self.try_trial(linked, &trial, Way::Whole, book);
            }
        }
        let mut rng = seed_for(seed, 18, 0);
        for written in values::written(&mut rng) {
            self.try_written(linked, &written, book);
        }
        for number in 0..ANY * self.options.rounds.max(1) {
            let trial = pages::any(&mut seed_for(seed, 19, number));
            self.try_trial(linked, &trial, Way::Whole, book);
        }
    }

    /// Words that are not the program's, whatever its input is.
    fn run_usage(&mut self, command: &str, rng: &mut Rng, book: &mut Book) {
        let mut lines = other_words();
        for kind in [DEGREES, TENTHS] {
            let writer = word_for("write", kind).into_bytes();
            let values = no_numbers(rng, kind).into_iter();
            lines.extend(values.map(|value| vec![writer.clone(), value]));
        }
        for (number, words) in lines.into_iter().enumerate() {
            let trial = Trial {
                name: "usage",
                words,
                input: good(rng, DEGREES),
            };
            let way = [Way::Open, Way::Whole, Way::Folder][number % 3];
            let agrees = self.try_trial(command, &trial, way, book);
            book.saw_if(agrees && way == Way::Open, Rule::SetUsageOpen);
            book.saw_if(agrees && way == Way::Folder, Rule::SetUsageUnread);
        }
    }

    /// Input that comes in pieces, late or without end.
    fn run_ways(&mut self, command: &str, rng: &mut Rng, book: &mut Book) {
        let ways = [
            (Way::Bytes, PAGE - 1, Rule::SetByByte),
            (Way::Bytes, PAGE, Rule::SetByByte),
            (Way::Bytes, PAGE + 1, Rule::SetByByte),
            (Way::Pieces, PAGE, Rule::SetInPieces),
            (Way::Pieces, PAGE + 1, Rule::SetInPieces),
            (Way::Pieces, 2 * PAGE, Rule::SetInPieces),
            (Way::LastLate, PAGE, Rule::SetInPieces),
            (Way::LastLate, PAGE + 1, Rule::SetLate),
            (Way::EndLate, PAGE, Rule::SetLateEnd),
            (Way::Endless, PAGE, Rule::SetEndless),
            (Way::Zeros, PAGE, Rule::SetEndless),
        ];
        for (number, words) in ALL.into_iter().enumerate() {
            for (way, size, rule) in ways {
                let kind = if number % 2 == 0 { TENTHS } else { DEGREES };
                let mut input = good(rng, kind);
                input.resize(size, rng.byte());
                let trial = Trial::new("a page", words, input);
                let agrees = self.try_trial(command, &trial, way, book);
                book.saw_if(agrees, rule);
            }
        }
    }

    /// Starts the program on a trial and holds what it says against the model; whether they agree.
    fn try_trial(&mut self, command: &str, trial: &Trial, way: Way, book: &mut Book) -> bool {
        // Input without end is like any that is too long.
        let input = match way {
            Way::Endless | Way::Zeros => &[0; PAGE + 1][..],
            _ => &trial.input,
        };
        let want = setpoint(&trial.words, input, book);
        let (_, agrees) = self.try_said(command, trial, way, &want);
        book.saw_if(agrees && trial.input.len() >= 100_000, Rule::SetFar);
        agrees
    }

    /// A page written, and what was written put to every reader, so that the program is held against itself too.
    fn try_written(&mut self, command: &str, written: &Written, book: &mut Book) {
        let Written {
            kind,
            value,
            tenths,
            page,
        } = written;
        let (other, rule) = match *kind {
            DEGREES => (TENTHS, Rule::SetBack101),
            _ => (DEGREES, Rule::SetBack102),
        };
        let writer = word_for("write", *kind);
        let trial = Trial::new("a value in range", &[&writer, value], page.clone());
        let want = setpoint(&trial.words, page, book);
        let (after, mut all) = self.try_said(command, &trial, Way::Whole, &want);
        for (reader, line) in [
            (word_for("read", *kind), format!("{tenths}\n")),
            ("read".into(), format!("{tenths}\n")),
            (word_for("read", other), "refused 13\n".into()),
        ] {
            let trial = Trial::new("what was written", &[&reader], after.printed.clone());
            let want = Said {
                printed: line.into_bytes(),
                errors: Vec::new(),
            };
            all &= self.try_said(command, &trial, Way::Whole, &want).1;
        }
        book.saw_if(all, rule);
    }

    /// Starts the program on a trial; what it says, and whether that is what is wanted.
    fn try_said(&mut self, command: &str, trial: &Trial, way: Way, want: &Said) -> (Said, bool) {
        if self.is_over() {
            self.failed += 1;
            return (Said::default(), false);
        }
        self.pages += 1;
        let (got, ended) = self.told(command, trial, way);
        let agrees = fits(want, &got) && ended;
        self.count(agrees);
        if !agrees {
            let Trial { name, words, input } = trial;
            let seed = self.options.seed;
            println!("\nDIFFERENCE: setpoint, {name:?} of seed {seed}, given {way:?}");
            let words: Vec<String> = words.iter().map(|word| shown(word)).collect();
            println!("words: {}", words.join(" "));
            println!("input: {}", shown_bytes(input));
            for (who, said) in [("model", want), ("program", &got)] {
                let [printed, errors] = [&said.printed, &said.errors].map(|text| shown(text));
                println!("{who:<8} {printed}, standard error {errors}");
            }
            if !ended {
                println!("the program has not ended by itself, or not with its input open");
            }
        }
        (got, agrees)
    }

    /// What the program says to a trial, and whether it ends by itself.
    fn told(&self, command: &str, trial: &Trial, way: Way) -> (Said, bool) {
        let errors = self.folder.join("errors");
        let wait = self.options.wait;
        let stdin = match way {
            Way::Zeros => Stdio::from(File::open("/dev/zero").expect("a device of zeros")),
            Way::Folder => Stdio::from(File::open(&self.folder).expect("the temporary folder")),
            _ => Stdio::piped(),
        };
        let mut program = Program::start_words(command, &trial.words, stdin, wait, &errors);
        let mut open_ends = true;
        match way {
            Way::Whole if trial.input.len() < FAR => program.send(&trial.input),
            Way::Whole => program.pour(trial.input.clone(), false),
            Way::Endless => program.pour(trial.input.clone(), true),
            Way::Bytes | Way::Pieces => {
                let size = if way == Way::Bytes { 1 } else { 7 };
                for piece in trial.input.chunks(size) {
                    program.send(piece);
                    thread::sleep(PAUSE);
                }
            }
            Way::LastLate | Way::EndLate => {
                let late = usize::from(way == Way::LastLate);
                let (first, last) = trial.input.split_at(trial.input.len() - late);
                program.send(first);
                thread::sleep(LATE);
                program.send(last);
            }
            // The output ends though the input does not.
            Way::Open => open_ends = program.ends_open(),
            Way::Zeros | Way::Folder => {}
        }
        let (printed, ended) = program.end();
        let errors = fs::read(&errors).unwrap_or_default();
        (Said { printed, errors }, ended && open_ends)
    }
}

/// Whether a program says what the model says; the words of a usage line are free.
fn fits(want: &Said, got: &Said) -> bool {
    fits_usage("setpoint", want, got)
}

/// Text in quotes, other bytes as hex digits; of a long one, how it begins and ends.
pub(super) fn shown(bytes: &[u8]) -> String {
    let plain = |byte: &u8| matches!(byte, b' '..=b'~' | b'\n' | b'\r' | b'\t');
    let text = |bytes: &[u8]| format!("{:?}", String::from_utf8_lossy(bytes));
    if !bytes.iter().all(plain) {
        return shown_bytes(bytes);
    }
    if bytes.len() <= 2 * SHOWN {
        return text(bytes);
    }
    let [first, last] = [&bytes[..SHOWN], &bytes[bytes.len() - SHOWN..]].map(text);
    format!("{first} to {last}, {} characters", bytes.len())
}
