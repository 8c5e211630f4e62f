//! The playback program on good recordings, faulty ones, and the same with their runs cut.

use std::fs;
use std::io::Write;
use std::os::fd::OwnedFd;
use std::os::unix::net::UnixStream;
use std::process::Stdio;

use super::feed::{fed, head_alone, in_turn, Feed, Ready};
use super::{seed_for, shortest, Tester};
use crate::gen::faults::{count, faulty, faulty_named, mangled, two_faults, Faulty, MANGLES};
use crate::gen::heads::headed;
use crate::gen::recordings::{all_good, bytes_of, cut, first_event, good, short, Good, Record};
use crate::gen::rng::Rng;
use crate::model::book::{Book, Rule};
use crate::model::line::MOST;
use crate::model::recording::{playback, Playback};
use crate::program::Program;
use crate::report::{first_difference, hex};

/// The faults of recordings that are given record by record, the last two without one.
const IN_TURN: [Option<&str>; 6] = [
    Some("an unused bit"),
    Some("levels"),
    Some("a late card"),
    Some("a 17th card"),
    None,
    None,
];
/// Recordings with two faults.
const TWO: usize = 6;
/// One in so many faulty recordings is also given with its runs cut.
const EVERY: usize = 15;
/// Longest recording that is given byte by byte.
const BY_BYTE: usize = 400;
/// Most bytes and characters shown.
const SHOWN: usize = 600;

/// What the playback program prints: the answers, and the refusal with its place.
#[derive(PartialEq, Eq, Debug)]
struct Printed {
    answers: Vec<u8>,
    refusal: Option<(u8, usize)>,
}

impl Printed {
    /// Takes apart what is printed; none if it is out of form.
    fn read(text: &[u8]) -> Option<Printed> {
        let text = std::str::from_utf8(text).ok()?.strip_suffix('\n')?;
        let (answers, refusal) = match text.split_once('\n') {
            None => (text, None),
            Some((answers, line)) => {
                let (refusal, at) = line.strip_prefix("refused ")?.split_once(" at ")?;
                (answers, Some((refusal.parse().ok()?, at.parse().ok()?)))
            }
        };
        Some(Printed {
            answers: answers.as_bytes().to_vec(),
            refusal,
        })
    }
}

impl Tester {
    /// Everything that the playback program is tried on.
    pub(super) fn run_playback(&mut self, command: &str, book: &mut Book) {
        let mut ready = Ready::new(command, self.options.wait);
        for round in 0..self.options.rounds.max(1) {
            self.run_good(&mut ready, round, book);
            self.run_faulty(&mut ready, round, book);
            self.run_in_turn(&mut ready, round, book);
            self.run_heads(&mut ready, round, book);
        }
        self.run_streams(command);
    }

    /// A seed for one recording of a round.
    fn draw(&self, part: u64, round: usize, number: usize) -> Rng {
        seed_for(self.options.seed, part, 10_000 * round + number)
    }

    /// Good recordings, also with their runs cut, and told to the wire program.
    fn run_good(&mut self, ready: &mut Ready, round: usize, book: &mut Book) {
        for (number, sort) in all_good().into_iter().enumerate() {
            let mut rng = self.draw(7, round, number);
            let records = good(&mut rng, sort);
            let name = format!("{sort:?}");
            let got = self.try_records(ready, &name, &records, Feed::Whole, &mut rng, book);
            // The long one is played once alone, for the time that it takes.
            if !matches!(sort, Good::Long | Good::Cards) {
                self.try_cut(ready, &records, records.len(), &got, &mut rng, book);
            }
            self.try_wire(&records, &got, book);
        }
    }

    /// Recordings with every fault, with two, with bytes changed anywhere, and the empty one.
    fn run_faulty(&mut self, ready: &mut Ready, round: usize, book: &mut Book) {
        let feeds = [Feed::Whole, Feed::Bytes, Feed::Whole, Feed::Pieces];
        for number in 0..count() {
            let mut rng = self.draw(8, round, number);
            let Faulty {
                name,
                records,
                first,
                ..
            } = faulty(&mut rng, number);
            let feed = feeds[number % feeds.len()];
            let got = self.try_records(ready, name, &records, feed, &mut rng, book);
            if name == "a last card" || number % EVERY == round % EVERY {
                self.try_cut(ready, &records, first, &got, &mut rng, book);
            }
            if name == "levels" && number % 2 == 0 {
                self.try_wire(&records, &got, book);
            }
        }
        for number in 0..TWO {
            let mut rng = self.draw(9, round, number);
            let Faulty {
                name,
                records,
                second,
                ..
            } = two_faults(&mut rng);
            let feed = feeds[number % feeds.len()];
            let got = self.try_records(ready, name, &records, feed, &mut rng, book);
            let refusal = Printed::read(&got).and_then(|printed| printed.refusal);
            let earlier = refusal.is_some_and(|(_, at)| Some(at) < second);
            book.saw_if(earlier, Rule::PlayTwoFaults);
        }
        for number in 0..MANGLES {
            let mut rng = self.draw(10, round, number);
            let (name, bytes) = mangled(&mut rng, number);
            let records = [Record::Odd(bytes)];
            let feed = feeds[number % feeds.len()];
            self.try_records(ready, name, &records, feed, &mut rng, book);
        }
        let mut rng = self.draw(11, round, 0);
        let mut far = vec![Record::Run(Vec::new()); 7_000 + rng.below(1_000)];
        far.extend(vec![Record::Reset; 7_000]);
        far.push(Record::Levels(0, 0));
        self.try_records(ready, "a far refusal", &far, Feed::Pieces, &mut rng, book);
        for records in [vec![], vec![Record::Run(Vec::new())]] {
            self.try_records(ready, "no event", &records, Feed::Whole, &mut rng, book);
        }
    }

    /// Recordings given record by record, the answers awaited in between.
    fn run_in_turn(&mut self, ready: &mut Ready, round: usize, book: &mut Book) {
        for (number, fault) in IN_TURN.iter().enumerate() {
            if self.is_over() {
                self.failed += 1;
                continue;
            }
            let mut rng = self.draw(12, round, number);
            let records = match fault {
                Some(name) => faulty_named(&mut rng, name).records,
                None => {
                    let chips = rng.below(MOST + 1);
                    short(&mut rng, chips)
                }
            };
            let bytes = bytes_of(&records);
            let want = playback(&bytes, book);
            let (got, ended) = in_turn(ready.next(), &records, &mut rng, book);
            self.recordings += 1;
            self.count(got == want && ended);
            if got != want || !ended {
                let seed = self.options.seed;
                println!(
                    "\nDIFFERENCE: playback, record by record, recording {number} of seed {seed}"
                );
                println!("answers differ, or do not come before the next record is sent");
                show(&bytes, &want, &got, ended);
            }
        }
    }

    /// Recordings that stop behind the head of a record that cannot be right: refused with the input open.
    fn run_heads(&mut self, ready: &mut Ready, round: usize, book: &mut Book) {
        let mut rng = self.draw(13, round, 0);
        for (number, headed) in headed(&mut rng).into_iter().enumerate() {
            if self.is_over() {
                self.failed += 1;
                continue;
            }
            let bytes = [&headed.good[..], &headed.head].concat();
            let mut model = Playback::new();
            let want = model.take(&bytes, false, &mut Book::new(None));
            let (got, ended) = head_alone(ready.next(), &headed, number + round);
            self.recordings += 1;
            let same = got == want && ended;
            self.count(same);
            book.saw_if(same && model.is_over(), headed.rule);
            if !same {
                let seed = self.options.seed;
                println!("\nDIFFERENCE: playback, a head alone, recording {number} of seed {seed}");
                println!("answers differ, or the refusal or the end waits for more input");
                show(&bytes, &want, &got, ended);
            }
        }
    }

    /// Gives a recording and holds what is printed against the model; what is printed.
    fn try_records(
        &mut self,
        ready: &mut Ready,
        name: &str,
        records: &[Record],
        feed: Feed,
        rng: &mut Rng,
        book: &mut Book,
    ) -> Vec<u8> {
        if self.is_over() {
            self.failed += 1;
            return Vec::new();
        }
        let bytes = bytes_of(records);
        let feed = match feed {
            Feed::Bytes if bytes.len() > BY_BYTE => Feed::Pieces,
            _ => feed,
        };
        let want = playback(&bytes, book);
        let (got, ended) = fed(ready.next(), &bytes, feed, rng, book);
        self.recordings += 1;
        self.events += Printed::read(&want).map_or(0, |printed| printed.answers.len());
        self.count(got == want && ended);
        if got != want || !ended {
            let seed = self.options.seed;
            println!("\nDIFFERENCE: playback, {name:?} of seed {seed}, given {feed:?}");
            show(&bytes, &want, &got, ended);
            self.shrink_records(ready, records, rng);
        }
        got
    }

    /// The same recording with runs before a place cut in two: the same answers and the same refusal,
    /// its place moved by the bytes added.
    fn try_cut(
        &mut self,
        ready: &mut Ready,
        records: &[Record],
        end: usize,
        whole: &[u8],
        rng: &mut Rng,
        book: &mut Book,
    ) {
        let parts = cut(rng, records, end, book);
        let added = bytes_of(&parts).len() - bytes_of(records).len();
        let got = self.try_records(ready, "runs cut", &parts, Feed::Whole, rng, book);
        if self.is_over() {
            self.failed += 1;
            return;
        }
        let [whole, parts] = [whole, &got].map(Printed::read);
        let moved = whole.map(|printed| Printed {
            refusal: printed.refusal.map(|(refusal, at)| (refusal, at + added)),
            ..printed
        });
        let refused = moved
            .as_ref()
            .is_some_and(|printed| printed.refusal.is_some());
        book.saw_if(refused && added > 0, Rule::PlayCutMoved);
        let same = moved.is_some() && moved == parts;
        self.count(same);
        if !same {
            println!("\nDIFFERENCE: playback, runs cut, {added} bytes more");
            println!("recording: {}", shown_bytes(&bytes_of(records)));
            println!("whole, the place moved: {moved:?}");
            println!("runs cut: {parts:?}");
        }
    }

    /// The same events through the wire program: the same bits up to the first refusal.
    fn try_wire(&mut self, records: &[Record], got: &[u8], book: &mut Book) {
        let Some(command) = self.options.wire.clone() else {
            return;
        };
        let card = bytes_of(&records[..first_event(records)]);
        let events: Option<Vec<Vec<u8>>> = records.iter().map(Record::events).collect();
        let Some(events) = events else {
            return;
        };
        if self.is_over() {
            self.failed += 1;
            return;
        }
        let answers = self.wire_output(&command, &card, &events.concat());
        let played = Printed::read(got);
        let same = played.is_some_and(|played| {
            let refused = played.refusal.is_some();
            book.saw_if(!refused, Rule::PlayWire);
            book.saw_if(refused, Rule::PlayWireRefused);
            let next = answers.get(played.answers.len());
            let refused_too = next == Some(&b'G');
            answers.starts_with(&played.answers)
                && if refused { refused_too } else { next.is_none() }
        });
        self.count(same);
        if !same {
            println!("\nDIFFERENCE: playback and wire");
            show(&bytes_of(records), &answers, got, true);
        }
    }

    /// Shows a recording of fewer records that is still answered otherwise.
    fn shrink_records(&self, ready: &mut Ready, records: &[Record], rng: &mut Rng) {
        let found = shortest(records, |records: &[Record]| {
            let bytes = bytes_of(records);
            let mut book = Book::new(None);
            let want = playback(&bytes, &mut book);
            let (got, ended) = fed(ready.next(), &bytes, Feed::Whole, rng, &mut book);
            (got != want || !ended).then(|| (records.to_vec(), (want, got, ended)))
        });
        let Some((records, (want, got, ended))) = found else {
            println!("not seen again in one go: it goes by the pieces");
            return;
        };
        println!("shortest recording found, {} records:", records.len());
        show(&bytes_of(&records), &want, &got, ended);
    }

    /// An argument, input that cannot be read, output that cannot be written.
    fn run_streams(&mut self, command: &str) {
        let errors = self.folder.join("errors");
        let wait = self.options.wait;
        let checks: [(&str, &dyn Fn() -> bool); 5] = [
            ("an argument gets a usage line", &|| {
                let path = Some(errors.as_path());
                let program = Program::start_noting(command, path, wait, &self.folder.join("said"));
                let (printed, ended) = program.end();
                let said = fs::read(self.folder.join("said")).unwrap_or_default();
                let said = String::from_utf8_lossy(&said).to_lowercase();
                printed.is_empty() && ended && said.contains("usage")
            }),
            ("a directory as input is told as such", &|| {
                let folder = fs::File::open(&self.folder);
                let input = folder.expect("the temporary folder");
                let program = Program::start_reading(command, input.into(), wait, &errors);
                let words = fs::read(&self.folder).expect_err("a directory");
                let (printed, ended) = program.end();
                ended && !printed.contains(&b'\n') && says(&errors, &words.to_string())
            }),
            ("input that breaks off is not taken for the end", &|| {
                let records = [Record::Reset, Record::Run(vec![0, 1, 1]), Record::PowerOn];
                let bytes = bytes_of(&records);
                let (ours, input) = broken(&bytes[..bytes.len() - 1]);
                let program = Program::start_reading(command, input, wait, &errors);
                drop(ours);
                let (printed, ended) = program.end();
                let words = std::io::Error::from_raw_os_error(104).to_string();
                ended && printed == b"1011" && says(&errors, &words)
            }),
            ("it stops when nobody reads", &|| {
                let mut program = Program::start_unheard(command, wait);
                program.send(&bytes_of(&[Record::Reset, Record::Reset]));
                program.stops()
            }),
            ("it stops when the device is full", &|| {
                let mut program = Program::start_reading(
                    &format!("{command} >/dev/full"),
                    Stdio::piped(),
                    wait,
                    &errors,
                );
                program.send(&bytes_of(&[Record::Reset, Record::Reset]));
                let words = std::io::Error::from_raw_os_error(28).to_string();
                program.stops() && says(&errors, &words)
            }),
        ];
        let [mut passed, mut failed] = [0, 0];
        for (name, holds) in checks {
            // What is not tried counts as failed.
            if self.failed + failed >= self.options.stop {
                failed += 1;
            } else if holds() {
                passed += 1;
            } else {
                println!("\nDIFFERENCE: playback, it is not so: {name}");
                failed += 1;
            }
        }
        self.passed += passed;
        self.failed += failed;
    }
}

/// Input that gives these bytes and then fails, when our side of it is dropped.
pub(super) fn broken(bytes: &[u8]) -> (UnixStream, Stdio) {
    let (mut ours, mut theirs) = UnixStream::pair().expect("a pair of sockets");
    // What is left unread on our side makes the other side fail when ours is closed.
    let sent = ours.write_all(bytes);
    sent.and_then(|()| theirs.write_all(b"unread"))
        .expect("a pair of sockets takes a few bytes");
    (ours, Stdio::from(OwnedFd::from(theirs)))
}

/// Whether the error output has the system's words for an error.
pub(super) fn says(errors: &std::path::Path, error: &str) -> bool {
    let words = error.split(" (os error").next().unwrap_or(error);
    let said = fs::read(errors).unwrap_or_default();
    String::from_utf8_lossy(&said).contains(words)
}

/// Bytes as they are shown.
pub(super) fn shown_bytes(bytes: &[u8]) -> String {
    let some = hex(&bytes[..bytes.len().min(SHOWN)]);
    if bytes.len() > SHOWN {
        format!("{some} and so on, {} bytes", bytes.len())
    } else {
        some
    }
}

/// A recording, and what model and program print from shortly before the first difference on.
fn show(recording: &[u8], want: &[u8], got: &[u8], ended: bool) {
    println!("recording: {}", shown_bytes(recording));
    let at = first_difference(want, got);
    println!("the same up to character {at}");
    let from = at.saturating_sub(SHOWN / 10);
    for (who, text) in [("model", want), ("program", got)] {
        let part = &text[from.min(text.len())..text.len().min(at + SHOWN / 10)];
        println!("{who:<8} {:?}", String::from_utf8_lossy(part));
    }
    if !ended {
        println!("the program has not ended by itself");
    }
}
