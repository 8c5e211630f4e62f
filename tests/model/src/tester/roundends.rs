//! The round program where its file or its card cannot be read, where its images come through a pipe, and where its
//! output cannot be written.

use std::ffi::OsStr;
use std::fs::{self, File};
use std::io::{self, Write};
use std::os::unix::ffi::OsStrExt;
use std::process::{Command, Stdio};
use std::thread;
use std::time::Duration;

use super::playback::{broken, says};
use super::setpoint::shown;
use super::steps::{word, Step};
use super::Tester;
use crate::gen::rng::Rng;
use crate::gen::rounds::{self, card_of, Opt, Trial};
use crate::model::book::{Book, Rule};
use crate::model::round::words::round_said;
use crate::program::Program;

/// A pause between two pieces of a file that comes through a pipe.
const PAUSE: Duration = Duration::from_micros(300);

impl Tester {
    /// Files that cannot be opened or read, names that look like something else, pipes, input that is a directory or
    /// breaks off, devices that are full and outputs that nobody reads.
    pub(super) fn run_round_ends(
        &mut self,
        command: &str,
        linked: &str,
        rng: &mut Rng,
        book: &mut Book,
    ) {
        self.run_no_file(command, linked, book);
        self.run_file_names(linked, book);
        self.run_pipes(linked, rng, book);
        let good = card_of(&[(1, 0x43), (2, 0x3A)]);
        for command in [command, linked] {
            self.check("round", "a directory as input is told as such", |tester| {
                let input = File::open(&tester.folder).expect("the temporary folder");
                tester.tells(command, &[], input.into(), b"standard input", 21)
            });
        }
        for bytes in [&good[..0], &good[..7], &good] {
            self.check(
                "round",
                "input that breaks off is not taken for the end",
                |tester| {
                    let (ours, input) = broken(bytes);
                    drop(ours);
                    tester.tells(linked, &[], input, b"standard input", 104)
                },
            );
        }
        let full = io::Error::from_raw_os_error(28).to_string();
        for words in ["", "--places 1", "--pages 5"] {
            let asked = format!("{linked} {words}");
            self.check("round", "it stops when nobody reads", |tester| {
                let mut program = Program::start_unheard(&asked, tester.options.wait);
                program.send(&good);
                program.close();
                program.stops()
            });
            self.check("round", "a full device is told as such", |tester| {
                let errors = tester.folder.join("errors");
                let asked = format!("{asked} >/dev/full");
                let wait = tester.options.wait;
                let mut program = Program::start_reading(&asked, Stdio::piped(), wait, &errors);
                program.send(&good);
                let (_, status) = program.end_status();
                status == Some(0) && says(&errors, "standard output: ") && says(&errors, &full)
            });
        }
    }

    /// Files that cannot be opened or read: nothing else happens, and the card is not waited for.
    fn run_no_file(&mut self, command: &str, linked: &str, book: &mut Book) {
        let mut names = self.unread_names();
        // Names that other programs take for something else, none of which is there.
        let others = [
            "", "-", "--", "-x", "--help", "--images", "--places", "--pages", "2", "missing", "*",
        ];
        names.extend(others.map(|name| (word(name), 2)));
        for (number, (name, error)) in names.into_iter().enumerate() {
            let told = format!("{} is told as unread", shown(&name));
            let mut words = vec![word("--images"), name.clone()];
            match number % 3 {
                1 => words.extend(["--places", "2"].map(word)),
                2 => words
                    .splice(0..0, ["--pages", "7"].map(word))
                    .for_each(drop),
                _ => {}
            }
            let mut holds = false;
            self.check("round", &told, |tester| {
                // The names without a folder are looked for where nothing is.
                let start = if number == 2 { command } else { linked };
                let start = tester.inside("nothing", start);
                holds = tester.tells(&start, &words, Stdio::piped(), &name, error);
                holds
            });
            book.saw_if(holds, Rule::RoundUnread);
        }
        // A card that would be refused, and one that cannot be read.
        let name = self.folder.join("missing").as_os_str().as_bytes().to_vec();
        let words = [word("--images"), name.clone()];
        let path = self.card_file(&card_of(&[(3, 1)]));
        for input in [path.as_path(), self.folder.clone().as_path()] {
            let mut holds = false;
            self.check("round", "the file is told before the card", |tester| {
                let input = File::open(input).expect("a card in the temporary folder");
                holds = tester.tells(linked, &words, input.into(), &name, 2);
                holds
            });
            book.saw_if(holds, Rule::RoundUnreadCard);
        }
    }

    /// Files by names that look like something else.
    fn run_file_names(&mut self, linked: &str, book: &mut Book) {
        let names: [&[u8]; 10] = [
            b"-",
            b"--",
            b"-x",
            b"--images",
            b"--places",
            b"--pages",
            b"16",
            b"two  spaces ",
            b"\xFF\x80",
            b"a\nb",
        ];
        let card = card_of(&[(2, 0x3A), (1, 0x43)]);
        for (number, name) in names.into_iter().enumerate() {
            let command = self.inside("called", linked);
            let path = self.folder.join("called").join(OsStr::from_bytes(name));
            let image: Vec<u8> = (0..2624).map(|place| (place + number) as u8).collect();
            fs::write(&path, &image).expect("a file in the temporary folder");
            let mut words = vec![word("--images"), name.to_vec()];
            words.extend(["--places", "2"].map(word));
            if number % 2 == 0 {
                words.rotate_left(2);
            }
            // The program's paths are text in UTF-8.
            if std::str::from_utf8(name).is_err() {
                let told = format!("{} is told as unread", shown(name));
                self.check("round", &told, |tester| {
                    tester.tells(&command, &words, Stdio::piped(), name, 2)
                });
                continue;
            }
            let want = round_said(&words, Some(&image), &card, &mut Book::new(None));
            let steps = [Step::Send(&card)];
            let agrees = self.try_words(&command, "a name", &words, &card, &steps, &want);
            book.saw_if(agrees.1, Rule::RoundNamed);
        }
    }

    /// Images through a pipe, in pieces; a device that is empty.
    fn run_pipes(&mut self, linked: &str, rng: &mut Rng, book: &mut Book) {
        for (number, units) in rounds::some_lines(rng).into_iter().enumerate() {
            for more in [0, 1] {
                if self.is_over() {
                    self.failed += 1;
                    continue;
                }
                let mut images = rounds::images(&units);
                images.extend(vec![0xFF; more]);
                let path = self.folder.join(format!("pipe {number} {more}"));
                let made = Command::new("mkfifo").arg(&path).status();
                assert!(made.is_ok_and(|made| made.success()), "a pipe by name");
                let trial = Trial {
                    name: "images through a pipe",
                    units: units.clone(),
                    card: None,
                    options: vec![Opt::Images],
                };
                let card = trial.card();
                let words = trial.words(path.as_os_str().as_bytes());
                let want = round_said(&words, Some(&images), &card, &mut Book::new(None));
                let size = rng.pick(&[700, 2000, 2624, 4096]);
                thread::spawn(move || {
                    // A program that does not open the pipe leaves this waiting until the run ends.
                    let opened = File::options().write(true).open(path);
                    let Ok(mut pipe) = opened else {
                        return;
                    };
                    for piece in images.chunks(size) {
                        if pipe.write_all(piece).is_err() {
                            return;
                        }
                        thread::sleep(PAUSE);
                    }
                });
                let steps = [Step::Send(&card)];
                let agrees = self.try_words(linked, trial.name, &words, &card, &steps, &want);
                let rule = [Rule::RoundPipe, Rule::RoundPipeMore][more];
                book.saw_if(agrees.1, rule);
            }
        }
        for chips in [&[(2, 0x3A)][..], &[(1, 0x43)]] {
            let card = card_of(chips);
            let words = ["--images", "/dev/null"].map(word);
            let want = round_said(&words, Some(&[]), &card, &mut Book::new(None));
            let steps = [Step::Send(&card)];
            self.try_words(linked, "an empty device", &words, &card, &steps, &want);
        }
    }
}
