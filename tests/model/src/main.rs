//! Tries the list, wire, playback, setpoint, hexfile and round programs, or the library for C behind its driver, against
//! an independent model, or serves the model in their place.

mod cases;
mod gen;
mod library;
mod model;
mod program;
mod report;
mod tester;

use std::io::{self, Read, Write};
use std::os::unix::ffi::OsStringExt;
use std::process::ExitCode;
use std::time::{Duration, SystemTime, UNIX_EPOCH};

use cases::{Case, CASES};
use model::book::{slip_named, Book, Slip, SLIPS};
use model::hexfile;
use model::programs::{list, Wire};
use model::recording::Playback;
use model::round;
use model::setpoint::words::{command_of, said};
use model::setpoint::PAGE;
use tester::{run, Options};

const USAGE: &str = "\
wire-model [--list PROGRAM] [--wire PROGRAM] [--playback PROGRAM]
           [--setpoint PROGRAM] [--setpoint-linked PROGRAM]
           [--hexfile PROGRAM] [--hexfile-linked PROGRAM]
           [--round PROGRAM] [--round-linked PROGRAM] [--seed N|time]
           [--cards N] [--scripts N] [--rounds N] [--long] [--stop N] [--wait SECONDS] [--rules]
wire-model --library DRIVER [--seed N|time] [--lines N]
           [--long] [--stop N] [--wait SECONDS] [--rules]
wire-model --serve-list [--slip NAME]
wire-model --serve-wire CARDFILE [--slip NAME]
wire-model --serve-playback [--slip NAME]
wire-model [--slip NAME] --serve-setpoint WORDS
wire-model [--slip NAME] --serve-hexfile WORDS
wire-model [--slip NAME] --serve-round WORDS
wire-model --serve-library [--slip NAME]
wire-model --cases [--slip NAME]
wire-model --slips";

/// What is asked for.
enum Mode {
    Test,
    Library { command: String, lines: usize },
    ServeList,
    ServeWire(String),
    ServePlayback,
    ServeSetpoint(Vec<Vec<u8>>),
    ServeHexfile(Vec<Vec<u8>>),
    ServeRound(Vec<Vec<u8>>),
    ServeLibrary,
    Cases,
    Slips,
}

fn main() -> ExitCode {
    let (mode, options, slip) = match read_flags() {
        Ok(read) => read,
        Err(message) => {
            eprintln!("{message}\nusage:\n{USAGE}");
            return ExitCode::from(2);
        }
    };
    let done = match mode {
        Mode::Test => run_cases(None, false) && run(options),
        Mode::Library { command, lines } => {
            run_cases(None, false)
                && library::run(library::Options {
                    command,
                    lines,
                    seed: options.seed,
                    stop: options.stop,
                    wait: options.wait,
                    rules: options.rules,
                })
        }
        Mode::ServeList => serve_list(slip).is_ok(),
        Mode::ServeWire(path) => serve_wire(&path, slip).is_ok(),
        Mode::ServePlayback => serve_playback(slip).is_ok(),
        Mode::ServeSetpoint(words) => serve_setpoint(&words, slip).is_ok(),
        Mode::ServeHexfile(words) => {
            return ExitCode::from(hexfile::served::serve(&words, &mut Book::new(slip)));
        }
        Mode::ServeRound(words) => {
            return ExitCode::from(round::served::serve(&words, &mut Book::new(slip)));
        }
        Mode::ServeLibrary => library::calls::serve(&mut Book::new(slip)).is_ok(),
        Mode::Cases => run_cases(slip, true),
        Mode::Slips => {
            for (_, name, text) in SLIPS {
                println!("{name:<20} {text}");
            }
            true
        }
    };
    ExitCode::from(u8::from(!done))
}

/// Reads the command line.
fn read_flags() -> Result<(Mode, Options, Option<Slip>), String> {
    let mut mode = Mode::Test;
    let mut slip = None;
    let mut lines = 5000;
    let mut options = Options {
        list: None,
        wire: None,
        playback: None,
        setpoint: None,
        linked: None,
        hexfile: None,
        hexfile_linked: None,
        round: None,
        round_linked: None,
        seed: 1,
        cards: 60,
        scripts: 480,
        rounds: 1,
        stop: 10,
        wait: Duration::from_secs(20),
        rules: false,
    };
    let mut flags = std::env::args().skip(1);
    while let Some(flag) = flags.next() {
        let mut value = || flags.next().ok_or(format!("{flag} asks for a value"));
        match flag.as_str() {
            "--list" => options.list = Some(value()?),
            "--wire" => options.wire = Some(value()?),
            "--playback" => options.playback = Some(value()?),
            "--setpoint" => options.setpoint = Some(value()?),
            "--setpoint-linked" => options.linked = Some(value()?),
            "--hexfile" => options.hexfile = Some(value()?),
            "--hexfile-linked" => options.hexfile_linked = Some(value()?),
            "--round" => options.round = Some(value()?),
            "--round-linked" => options.round_linked = Some(value()?),
            "--seed" => options.seed = seed(&value()?)?,
            "--cards" => options.cards = number(&value()?)?,
            "--scripts" => options.scripts = number(&value()?)?,
            "--rounds" => options.rounds = number(&value()?)?,
            "--stop" => options.stop = number(&value()?)?.max(1),
            "--wait" => options.wait = Duration::from_secs(number(&value()?)? as u64),
            "--rules" => options.rules = true,
            "--long" => {
                options.cards = 3000;
                options.scripts = 20000;
                options.rounds = 30;
                lines = 60000;
            }
            "--slip" => {
                let name = value()?;
                slip = Some(slip_named(&name).ok_or(format!("no slip is named {name}"))?);
            }
            "--library" => {
                mode = Mode::Library {
                    command: value()?,
                    lines: 0,
                }
            }
            "--lines" => lines = number(&value()?)?,
            "--serve-library" => mode = Mode::ServeLibrary,
            "--serve-list" => mode = Mode::ServeList,
            "--serve-wire" => mode = Mode::ServeWire(value()?),
            "--serve-playback" => mode = Mode::ServePlayback,
            "--serve-setpoint" | "--serve-hexfile" | "--serve-round" => {
                // All that follows are its words, which may be any bytes.
                let words = std::env::args_os();
                let before = words.len() - flags.len();
                let words = words.skip(before).map(OsStringExt::into_vec).collect();
                mode = match flag.as_str() {
                    "--serve-setpoint" => Mode::ServeSetpoint(words),
                    "--serve-hexfile" => Mode::ServeHexfile(words),
                    _ => Mode::ServeRound(words),
                };
                break;
            }
            "--cases" => mode = Mode::Cases,
            "--slips" => mode = Mode::Slips,
            _ if matches!(mode, Mode::ServePlayback) && slip == Some(Slip::ArgumentTaken) => {}
            _ => return Err(format!("unknown flag {flag}")),
        }
    }
    if let Mode::Library { lines: asked, .. } = &mut mode {
        *asked = lines;
    }
    let programs = [
        &options.list,
        &options.wire,
        &options.playback,
        &options.setpoint,
        &options.hexfile,
        &options.round,
    ];
    if matches!(mode, Mode::Test) && programs.iter().all(|program| program.is_none()) {
        return Err("nothing to test".into());
    }
    Ok((mode, options, slip))
}

fn number(text: &str) -> Result<usize, String> {
    text.parse().map_err(|_| format!("{text} is no number"))
}

/// A seed given as a number, or taken from the clock.
fn seed(text: &str) -> Result<u64, String> {
    if text == "time" {
        let since = SystemTime::now().duration_since(UNIX_EPOCH);
        return Ok(since.map_or(0, |since| since.as_nanos() as u64 % 1_000_000_000));
    }
    number(text).map(|seed| seed as u64)
}

/// The model as the list program.
fn serve_list(slip: Option<Slip>) -> io::Result<()> {
    let mut card = Vec::new();
    io::stdin().lock().read_to_end(&mut card)?;
    let text = list(&card, &mut Book::new(slip));
    io::stdout().lock().write_all(text.as_bytes())
}

/// The model as the wire program.
fn serve_wire(path: &str, slip: Option<Slip>) -> io::Result<()> {
    let mut book = Book::new(slip);
    let card = std::fs::read(path).inspect_err(|error| eprintln!("cannot read {path}: {error}"))?;
    let mut output = io::stdout().lock();
    let mut wire = match Wire::open(&card, &mut book) {
        Ok(wire) => wire,
        Err(line) => return output.write_all(line.as_bytes()),
    };
    let mut input = io::stdin().lock();
    let mut buffer = [0; 4096];
    let mut answers = Vec::new();
    loop {
        let count = input.read(&mut buffer)?;
        for character in &buffer[..count] {
            answers.extend(wire.take(*character, &mut book));
        }
        if count == 0 {
            answers.extend(wire.end(&mut book));
        }
        if count == 0 || !book.slips(Slip::HeldBack) {
            output.write_all(&answers)?;
            output.flush()?;
            answers.clear();
        }
        if count == 0 {
            return Ok(());
        }
    }
}

/// The model as the playback program.
fn serve_playback(slip: Option<Slip>) -> io::Result<()> {
    let mut book = Book::new(slip);
    let mut playback = Playback::new();
    let mut input = io::stdin().lock();
    let mut output = io::stdout().lock();
    let mut buffer = [0; 4096];
    while !playback.is_over() {
        let count = match input.read(&mut buffer) {
            Ok(count) => count,
            Err(_) if book.slips(Slip::ReadEnds) => 0,
            Err(error) => {
                eprintln!("standard input: {error}");
                return Err(error);
            }
        };
        let text = playback.take(&buffer[..count], count == 0, &mut book);
        let written = output.write_all(&text).and_then(|()| output.flush());
        if !book.slips(Slip::WritesOn) {
            written.inspect_err(|error| eprintln!("standard output: {error}"))?;
        }
    }
    Ok(())
}

/// The model as the setpoint program.
fn serve_setpoint(words: &[Vec<u8>], slip: Option<Slip>) -> io::Result<()> {
    let mut book = Book::new(slip);
    let command = command_of(words, &mut book);
    let mut page = Vec::new();
    if command.is_some() || book.slips(Slip::SetUsageWaits) {
        page = read_page(&book).inspect_err(|error| eprintln!("standard input: {error}"))?;
    }
    let said = said(command.as_ref(), &page, &mut book);
    io::stderr().write_all(&said.errors)?;
    let mut output = io::stdout().lock();
    let written = output
        .write_all(&said.printed)
        .and_then(|()| output.flush());
    if book.slips(Slip::SetWritesOn) {
        return Ok(());
    }
    written.inspect_err(|error| eprintln!("standard output: {error}"))
}

/// The page for the setpoint program: all of the input, up to a size that is no page by any slip.
fn read_page(book: &Book) -> io::Result<Vec<u8>> {
    let mut input = io::stdin().lock();
    let mut buffer = [0; 4096];
    let mut page = Vec::new();
    while page.len() < 200_000 {
        let count = match input.read(&mut buffer) {
            Err(_) if book.slips(Slip::SetReadEnds) => 0,
            read => read?,
        };
        page.extend(&buffer[..count]);
        let once = book.slips(Slip::SetReadOnce);
        let whole = book.slips(Slip::SetAtOnce) && page.len() == PAGE;
        if count == 0 || once || whole {
            break;
        }
        if book.slips(Slip::SetReadsOn) {
            page.truncate(PAGE + 1);
        }
    }
    Ok(page)
}

/// The model's own cases; told in full, or only if one fails.
fn run_cases(slip: Option<Slip>, told: bool) -> bool {
    let fails = |(_, case): &&(&str, Case)| !case(&mut Book::new(slip));
    let failing: Vec<_> = CASES.iter().filter(fails).collect();
    for (name, _) in &failing {
        println!("case fails: {name}");
    }
    let failed = failing.len();
    if told || failed > 0 {
        println!("{} passed, {failed} failed", CASES.len() - failed);
    }
    failed == 0
}
