//! A program started with words and given its input step by step.

use std::fs;
use std::io;
use std::os::unix::ffi::OsStrExt;
use std::os::unix::fs::symlink;
use std::process::Stdio;
use std::thread;
use std::time::Duration;

use super::setpoint::shown;
use super::Tester;
use crate::model::setpoint::words::Said;
use crate::program::Program;

/// A pause in which the program can read what it was sent.
const PAUSE: Duration = Duration::from_micros(300);
/// A pause in which a program that does not wait for more would answer.
const LATE: Duration = Duration::from_millis(60);

/// One step of giving the input.
#[derive(Clone, Copy)]
pub(super) enum Step<'a> {
    /// Sends this.
    Send(&'a [u8]),
    /// Sends this while the output is awaited, and ends the input.
    Pour(&'a [u8]),
    /// Sends this again and again, without end.
    Endless(&'a [u8]),
    /// Leaves the program time to read.
    Pause,
    /// Nothing may be printed for a while.
    Silent,
    /// The output must come to its end with the input open.
    Ends,
}

/// A start of a program: which one and how it is called, the name of the trial, its words, and what it is given, as it is
/// shown.
pub(super) struct Start<'a> {
    pub(super) program: &'a str,
    pub(super) command: &'a str,
    pub(super) name: &'a str,
    pub(super) words: &'a [Vec<u8>],
    pub(super) given: &'a dyn Fn() -> String,
}

/// How what a program says is judged, and how a difference is shown.
pub(super) struct Judge {
    pub(super) fits: fn(&Said, &Said) -> bool,
    pub(super) show: fn(&Said, &Said),
}

/// Whether what is printed is just what is wanted, and standard error has nothing, or one usage line of that program where
/// one is wanted.
pub(super) fn fits_usage(program: &str, want: &Said, got: &Said) -> bool {
    let lines = got.errors.iter().filter(|character| **character == b'\n');
    let begins = format!("usage: {program}");
    let usage = got.errors.starts_with(begins.as_bytes())
        && got.errors.ends_with(b"\n")
        && lines.count() == 1;
    let errors = match want.errors.is_empty() {
        true => got.errors.is_empty(),
        false => usage,
    };
    got.printed == want.printed && errors
}

/// One word as the program is given it.
pub(super) fn word(text: &str) -> Vec<u8> {
    text.as_bytes().to_vec()
}

impl Tester {
    /// What the program says, and what is at fault in how it comes.
    pub(super) fn told_in_steps(
        &self,
        command: &str,
        words: &[Vec<u8>],
        input: Stdio,
        steps: &[Step],
    ) -> (Said, Option<String>) {
        let errors = self.folder.join("errors");
        let wait = self.options.wait;
        let mut program = Program::start_words(command, words, input, wait, &errors);
        let mut fault = None;
        for step in steps {
            match step {
                Step::Send(bytes) => program.send(bytes),
                Step::Pour(bytes) => program.pour(bytes.to_vec(), false),
                Step::Endless(bytes) => program.pour(bytes.to_vec(), true),
                Step::Pause => thread::sleep(PAUSE),
                Step::Silent if !program.is_silent(LATE) => {
                    fault = Some("something is printed, or the output ends, too soon".into());
                }
                Step::Ends if !program.ends_open() => {
                    fault = Some("the output does not end with the input open".into());
                }
                Step::Silent | Step::Ends => {}
            }
        }
        let (printed, status) = program.end_status();
        if status != Some(0) {
            let told = status.map_or("none".into(), |status| status.to_string());
            fault = Some(format!("the exit status is {told}"));
        }
        let errors = fs::read(&errors).unwrap_or_default();
        (Said { printed, errors }, fault)
    }

    /// Starts the program and goes through the steps; what it says, and whether that is wanted. A difference is shown.
    pub(super) fn try_start(
        &mut self,
        start: &Start,
        input: Stdio,
        steps: &[Step],
        want: &Said,
        judge: &Judge,
    ) -> (Said, bool) {
        if self.is_over() {
            self.failed += 1;
            return (Said::default(), false);
        }
        let (got, fault) = self.told_in_steps(start.command, start.words, input, steps);
        let agrees = (judge.fits)(want, &got) && fault.is_none();
        self.count(agrees);
        if !agrees {
            let seed = self.options.seed;
            println!(
                "\nDIFFERENCE: {}, {:?} of seed {seed}",
                start.program, start.name
            );
            let words: Vec<String> = start.words.iter().map(|word| shown(word)).collect();
            println!("words: {}", words.join(" "));
            println!("{}", (start.given)());
            (judge.show)(want, &got);
            if let Some(fault) = fault {
                println!("{fault}");
            }
        }
        (got, agrees)
    }

    /// Names of files that cannot be opened or read, with the number of the system's error.
    pub(super) fn unread_names(&self) -> Vec<(Vec<u8>, i32)> {
        let folder = self.folder.as_os_str().as_bytes().to_vec();
        let within = |name: &[u8]| [&folder[..], b"/", name].concat();
        fs::write(self.folder.join("plain"), b"x").expect("a file in the temporary folder");
        let endless = self.folder.join("endless");
        if fs::symlink_metadata(&endless).is_err() {
            symlink(&endless, &endless).expect("a link in the temporary folder");
        }
        vec![
            (folder.clone(), 21),
            (b"/".to_vec(), 21),
            (within(b"missing"), 2),
            (within(b"missing/missing"), 2),
            (within(b"two  spaces "), 2),
            (within(b"\xFF\x80\xC3"), 2),
            (within("ünë: x".as_bytes()), 2),
            (within(b"plain/x"), 20),
            (within(b"endless"), 40),
            (within(&[b'n'; 300]), 36),
            (within(&b"n/".repeat(1000)), 2),
            (within(&b"n/".repeat(2500)), 36),
        ]
    }

    /// A file in the temporary folder that holds this; its name.
    pub(super) fn file(&self, bytes: &[u8]) -> Vec<u8> {
        let path = self.folder.join("a file");
        fs::write(&path, bytes).expect("a file in the temporary folder");
        path.as_os_str().as_bytes().to_vec()
    }

    /// The command started inside a folder of the temporary one.
    pub(super) fn inside(&self, folder: &str, command: &str) -> String {
        let path = self.folder.join(folder);
        fs::create_dir_all(&path).expect("a folder in the temporary one");
        format!("env -C '{}' {command}", path.display())
    }

    /// Whether the program prints nothing and tells just this name and the system's words, its input left open.
    pub(super) fn tells(
        &self,
        command: &str,
        words: &[Vec<u8>],
        input: Stdio,
        name: &[u8],
        error: i32,
    ) -> bool {
        let why = io::Error::from_raw_os_error(error).to_string();
        let why = why.split(" (os error").next().unwrap_or(&why);
        let line = [name, b": ", why.as_bytes(), b"\n"].concat();
        let (said, fault) = self.told_in_steps(command, words, input, &[Step::Ends]);
        let holds = said.printed.is_empty() && said.errors == line && fault.is_none();
        if !holds {
            println!("wanted on standard error: {}", shown(&line));
            println!(
                "printed: {}, standard error: {}",
                shown(&said.printed),
                shown(&said.errors)
            );
        }
        holds
    }
}
