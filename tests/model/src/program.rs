//! A program under test, run as a child.

use std::ffi::OsStr;
use std::fs::File;
use std::io::{Read, Write};
use std::os::unix::ffi::OsStrExt;
use std::path::Path;
use std::process::{Child, ChildStdin, Command, ExitStatus, Stdio};
use std::sync::mpsc::{channel, Receiver, RecvTimeoutError};
use std::thread;
use std::time::{Duration, Instant};

/// A running program with its input open.
pub struct Program {
    child: Child,
    input: Option<ChildStdin>,
    output: Receiver<Vec<u8>>,
    /// Output received and not yet handed on.
    held: Vec<u8>,
    wait: Duration,
}

impl Program {
    /// Starts a command line, with a path as its last argument.
    pub fn start(command: &str, path: Option<&Path>, wait: Duration) -> Program {
        Program::start_with(command, path, wait, Stdio::piped(), Stdio::inherit())
    }

    /// The same, with the error output in a file.
    pub fn start_noting(
        command: &str,
        path: Option<&Path>,
        wait: Duration,
        errors: &Path,
    ) -> Program {
        let file = File::create(errors).expect("a file in the temporary folder");
        Program::start_with(command, path, wait, Stdio::piped(), Stdio::from(file))
    }

    /// Starts a command line that reads this input, with the error output in a file.
    pub fn start_reading(command: &str, input: Stdio, wait: Duration, errors: &Path) -> Program {
        Program::start_words(command, &[], input, wait, errors)
    }

    /// The same, with these words as its last arguments.
    pub fn start_words(
        command: &str,
        words: &[Vec<u8>],
        input: Stdio,
        wait: Duration,
        errors: &Path,
    ) -> Program {
        let file = File::create(errors).expect("a file in the temporary folder");
        let words = words.iter().map(|word| OsStr::from_bytes(word));
        Program::start_with(command, words, wait, input, Stdio::from(file))
    }

    /// Starts a command line whose output nobody reads.
    pub fn start_unheard(command: &str, wait: Duration) -> Program {
        let none: Option<&OsStr> = None;
        let mut child = spawn(command, none, Stdio::piped(), Stdio::null());
        child.stdout = None;
        let (_, output) = channel();
        Program::of(child, output, wait)
    }

    fn start_with<W: AsRef<OsStr>>(
        command: &str,
        words: impl IntoIterator<Item = W>,
        wait: Duration,
        input: Stdio,
        errors: Stdio,
    ) -> Program {
        let mut child = spawn(command, words, input, errors);
        let mut stdout = child.stdout.take().expect("the program's output");
        let (sender, output) = channel();
        thread::spawn(move || {
            let mut buffer = [0; 65536];
            while let Ok(count @ 1..) = stdout.read(&mut buffer) {
                if sender.send(buffer[..count].to_vec()).is_err() {
                    return;
                }
            }
        });
        Program::of(child, output, wait)
    }

    fn of(mut child: Child, output: Receiver<Vec<u8>>, wait: Duration) -> Program {
        Program {
            input: child.stdin.take(),
            child,
            output,
            held: Vec::new(),
            wait,
        }
    }

    /// Sends input. A program that has ended shows by its missing answers.
    pub fn send(&mut self, text: &[u8]) {
        if let Some(input) = &mut self.input {
            let _ = input.write_all(text).and_then(|()| input.flush());
        }
    }

    /// Sends input meanwhile and closes it, so that nobody waits for a program that does not read on. Input without end
    /// is sent again and again until the program has ended.
    pub fn pour(&mut self, text: Vec<u8>, endless: bool) {
        if let Some(mut input) = self.input.take() {
            thread::spawn(move || while input.write_all(&text).is_ok() && endless {});
        }
    }

    /// Receives so many bytes, fewer if they do not come.
    pub fn receive(&mut self, count: usize) -> Vec<u8> {
        while self.held.len() < count {
            match self.output.recv_timeout(self.wait) {
                Ok(more) => self.held.extend(more),
                Err(_) => break,
            }
        }
        let count = count.min(self.held.len());
        self.held.drain(..count).collect()
    }

    /// The rest of the output, and whether it comes to its end in time; the input is left open.
    pub fn rest(&mut self) -> (Vec<u8>, bool) {
        loop {
            match self.output.recv_timeout(self.wait) {
                Ok(more) => self.held.extend(more),
                Err(error) => {
                    let rest = std::mem::take(&mut self.held);
                    return (rest, error == RecvTimeoutError::Disconnected);
                }
            }
        }
    }

    /// Whether the output comes to its end in time with the input open; what came is kept.
    pub fn ends_open(&mut self) -> bool {
        let (text, ends) = self.rest();
        self.held = text;
        ends
    }

    /// Closes the input.
    pub fn close(&mut self) {
        self.input = None;
    }

    /// Closes the input; the rest of the output, and whether the program ended by itself.
    pub fn end(self) -> (Vec<u8>, bool) {
        let (rest, status) = self.end_status();
        (rest, status.is_some())
    }

    /// Closes the input; the rest of the output, and the exit status of a program that ended by itself.
    pub fn end_status(mut self) -> (Vec<u8>, Option<i32>) {
        self.input = None;
        let rest = self.receive(usize::MAX);
        let ended = self.status();
        (rest, ended.and_then(|status| status.code()))
    }

    /// Whether nothing is printed for a while, and the output does not end.
    pub fn is_silent(&mut self, time: Duration) -> bool {
        match self.output.recv_timeout(time) {
            Ok(more) => {
                self.held.extend(more);
                false
            }
            Err(error) => error == RecvTimeoutError::Timeout && self.held.is_empty(),
        }
    }

    /// Whether the program stops in time, by itself or by a signal; its input is left open.
    pub fn stops(&mut self) -> bool {
        self.status().is_some()
    }

    /// How the program has ended, if it ends in time.
    fn status(&mut self) -> Option<ExitStatus> {
        let start = Instant::now();
        while start.elapsed() < self.wait {
            match self.child.try_wait() {
                Ok(Some(status)) => return Some(status),
                Ok(None) => thread::sleep(Duration::from_millis(1)),
                Err(_) => break,
            }
        }
        None
    }
}

/// Starts a command line by a shell, with these words as its last arguments.
fn spawn<W: AsRef<OsStr>>(
    command: &str,
    words: impl IntoIterator<Item = W>,
    input: Stdio,
    errors: Stdio,
) -> Child {
    Command::new("sh")
        .args(["-c", &format!("exec {command} \"$@\""), "sh"])
        .args(words)
        .stdin(input)
        .stdout(Stdio::piped())
        .stderr(errors)
        .spawn()
        .expect("a shell to start the program")
}

impl Drop for Program {
    /// Leaves no child behind.
    fn drop(&mut self) {
        self.input = None;
        let _ = self.child.kill();
        let _ = self.child.wait();
    }
}
