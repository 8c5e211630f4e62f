//! The hexfile program where a file or its input cannot be read, or its output cannot be written.

use std::fs::{self, File};
use std::io;
use std::os::unix::ffi::OsStrExt;
use std::process::Stdio;

use super::playback::{broken, says};
use super::setpoint::shown;
use super::steps::{word, Step};
use super::Tester;
use crate::gen::hexfiles::own_text;
use crate::model::hexfile::IMAGE;
use crate::program::Program;

/// The program's words.
const VERBS: [&str; 2] = ["read", "write"];

impl Tester {
    /// Files that cannot be opened or read, names that look like something else, input that is a directory or breaks off,
    /// devices that are full and outputs that nobody reads.
    pub(super) fn run_hex_ends(&mut self, command: &str, linked: &str) {
        self.run_unread(command, linked);
        self.run_names(linked);
        let image: Vec<u8> = (0..IMAGE).map(|place| place as u8).collect();
        let text = own_text(&image);
        let pieces: [(&str, &[u8]); 7] = [
            ("read", b""),
            ("read", &text[..100]),
            ("read", &text[..text.len() - 1]),
            ("read", &text),
            ("write", b""),
            ("write", &image[..20]),
            ("write", &image),
        ];
        for (verb, bytes) in pieces {
            self.check(
                "hexfile",
                "input that breaks off is not taken for the end",
                |tester| {
                    let (ours, input) = broken(bytes);
                    drop(ours);
                    tester.tells(linked, &[word(verb)], input, b"standard input", 104)
                },
            );
        }
        // A refusal that is decided before the input breaks off is told.
        self.check(
            "hexfile",
            "a refusal comes before input that breaks off",
            |tester| {
                let (ours, input) = broken(b":00000001FE\n:00");
                drop(ours);
                let (said, fault) = tester.told_in_steps(linked, &[word("read")], input, &[]);
                said.printed == b"refused 17\n" && fault.is_none()
            },
        );
        let full = io::Error::from_raw_os_error(28).to_string();
        for (verb, bytes) in [
            ("read", &text[..]),
            ("read", b":00000001FE\n"),
            ("write", &image),
            ("write", b"short"),
        ] {
            let asked = format!("{linked} {verb}");
            self.check("hexfile", "it stops when nobody reads", |tester| {
                let mut program = Program::start_unheard(&asked, tester.options.wait);
                program.send(bytes);
                program.close();
                program.stops()
            });
            self.check("hexfile", "a full device is told as such", |tester| {
                let errors = tester.folder.join("errors");
                let asked = format!("{asked} >/dev/full");
                let wait = tester.options.wait;
                let mut program = Program::start_reading(&asked, Stdio::piped(), wait, &errors);
                program.send(bytes);
                let (_, status) = program.end_status();
                status == Some(0) && says(&errors, "standard output: ") && says(&errors, &full)
            });
        }
    }

    /// Files that cannot be opened or read, by their names and as standard input.
    fn run_unread(&mut self, command: &str, linked: &str) {
        for (command, verb) in [(command, VERBS[0]), (linked, VERBS[0]), (linked, VERBS[1])] {
            self.check(
                "hexfile",
                "a directory as input is told as such",
                |tester| {
                    let input = File::open(&tester.folder).expect("the temporary folder");
                    tester.tells(command, &[word(verb)], input.into(), b"standard input", 21)
                },
            );
        }
        let mut names = self.unread_names();
        // Names that other programs take for something else, none of which is there.
        let others = [
            "", "-", "--", "-x", "--help", "read", "write", "missing", "~", "*", "$HOME",
        ];
        names.extend(others.map(|name| (word(name), 2)));
        for (name, error) in names {
            for verb in VERBS {
                let told = format!("{verb} of {} is told as unread", shown(&name));
                self.check("hexfile", &told, |tester| {
                    // The names without a folder are looked for where nothing is.
                    let command = tester.inside("empty", linked);
                    let words = [word(verb), name.clone()];
                    tester.tells(&command, &words, Stdio::piped(), &name, error)
                });
            }
        }
    }

    /// Files by names that look like something else.
    fn run_names(&mut self, linked: &str) {
        let image = [0xA5; IMAGE];
        let text = own_text(&image);
        let names: [&[u8]; 9] = [
            b"-",
            b"--",
            b"-x",
            b"read",
            b"write",
            b"two  spaces ",
            b"\xFF\x80",
            b"*",
            b"a\nb",
        ];
        for name in names {
            for (verb, content, want) in [("read", &text[..], &image[..]), ("write", &image, &text)]
            {
                let told = format!("{verb} of a file named {} is done", shown(name));
                self.check("hexfile", &told, |tester| {
                    let command = tester.inside("named", linked);
                    let path = tester
                        .folder
                        .join("named")
                        .join(std::ffi::OsStr::from_bytes(name));
                    fs::write(&path, content).expect("a file in the temporary folder");
                    let words = [word(verb), name.to_vec()];
                    // The program's paths are text in UTF-8.
                    if std::str::from_utf8(name).is_err() {
                        return tester.tells(&command, &words, Stdio::piped(), name, 2);
                    }
                    let steps = [Step::Ends];
                    let (said, fault) =
                        tester.told_in_steps(&command, &words, Stdio::piped(), &steps);
                    said.printed == want && said.errors.is_empty() && fault.is_none()
                });
            }
        }
    }
}
