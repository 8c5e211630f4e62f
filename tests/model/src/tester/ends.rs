//! The setpoint program where its input cannot be read or its output cannot be written.

use std::fs::{self, File};
use std::io;
use std::process::Stdio;

use super::playback::{broken, says};
use super::setpoint::ALL;
use super::Tester;
use crate::model::setpoint::PAGE;
use crate::program::Program;

impl Tester {
    /// Directories and input that breaks off, devices that are full and outputs that nobody reads.
    pub(super) fn run_ends(&mut self, command: &str, linked: &str) {
        let [folder, reset, full] = [21, 104, 28].map(io::Error::from_raw_os_error);
        let page = [&[4, 0, 102, 0, 210, 0][..], &[0xFF; PAGE - 6]].concat();
        let all = ALL.map(|words| (linked, words));
        for (command, words) in all.into_iter().chain([(command, ALL[0])]) {
            self.check(
                "setpoint",
                "a directory as input is told as such",
                |tester| {
                    let input = File::open(&tester.folder).expect("the temporary folder");
                    tester.is_unread(command, words, input.into(), &folder)
                },
            );
        }
        for (words, size) in [(ALL[0], 20), (ALL[2], PAGE), (ALL[4], PAGE)] {
            self.check(
                "setpoint",
                "input that breaks off is not taken for the end",
                |tester| {
                    let (ours, input) = broken(&page[..size]);
                    drop(ours);
                    tester.is_unread(linked, words, input, &reset)
                },
            );
        }
        for words in ["read", "read101", "write101 21", "write102 9"] {
            let asked = format!("{linked} {words}");
            self.check("setpoint", "it stops when nobody reads", |tester| {
                let mut program = Program::start_unheard(&asked, tester.options.wait);
                program.send(&page);
                program.close();
                program.stops()
            });
            self.check("setpoint", "a full device is told as such", |tester| {
                let errors = tester.folder.join("errors");
                let asked = format!("{asked} >/dev/full");
                let wait = tester.options.wait;
                let mut program = Program::start_reading(&asked, Stdio::piped(), wait, &errors);
                program.send(&page);
                program.close();
                program.stops() && says(&errors, &full.to_string())
            });
        }
    }

    /// Whether the program prints nothing and tells why its input cannot be read.
    fn is_unread(&self, command: &str, words: &[&str], input: Stdio, why: &io::Error) -> bool {
        let errors = self.folder.join("errors");
        let asked = format!("{command} {}", words.join(" "));
        let program = Program::start_reading(&asked, input, self.options.wait, &errors);
        let (printed, ended) = program.end();
        let said = fs::read(&errors).unwrap_or_default();
        let named = said.starts_with(b"standard input: ") && said.ends_with(b"\n");
        ended && printed.is_empty() && named && says(&errors, &why.to_string())
    }

    /// Counts something that must be so.
    pub(super) fn check(&mut self, program: &str, name: &str, holds: impl FnOnce(&Tester) -> bool) {
        if self.is_over() {
            self.failed += 1;
            return;
        }
        let holds = holds(self);
        self.count(holds);
        if !holds {
            println!("\nDIFFERENCE: {program}, it is not so: {name}");
        }
    }
}
