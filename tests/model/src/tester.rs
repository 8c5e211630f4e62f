//! Runs the programs on generated inputs and holds every answer against the model.

mod ends;
mod feed;
mod hexends;
mod hexfile;
mod playback;
mod round;
mod roundends;
mod setpoint;
mod steps;

use std::fs;
use std::path::PathBuf;
use std::time::{Duration, Instant};

use crate::gen::bench::{Bench, Script};
use crate::gen::cards::{card_of, damaged_card, good_card, Style, DAMAGES};
use crate::gen::rng::Rng;
use crate::gen::stories::{walk, Story, STORIES};
use crate::model::book::{Book, Place, Rule, RULES};
use crate::model::crc::{check_of, crc8, Check};
use crate::model::figure4::Figure4;
use crate::model::programs::{list, Wire};
use crate::program::Program;
use crate::report::{first_difference, hex, rows, split_events};

/// What to run.
pub struct Options {
    /// Command line of the list program.
    pub list: Option<String>,
    /// Command line of the wire program, up to the card file.
    pub wire: Option<String>,
    /// Command line of the playback program.
    pub playback: Option<String>,
    /// Command line of the setpoint program.
    pub setpoint: Option<String>,
    /// Command line that starts it sooner, for most of its starts.
    pub linked: Option<String>,
    /// Command line of the hexfile program, and one that starts it sooner.
    pub hexfile: Option<String>,
    pub hexfile_linked: Option<String>,
    /// Command line of the round program, and one that starts it sooner.
    pub round: Option<String>,
    pub round_linked: Option<String>,
    pub seed: u64,
    /// Random cards for the list program.
    pub cards: usize,
    /// Random scripts for the wire program.
    pub scripts: usize,
    /// How often each recording is drawn for the playback program, any pages for the setpoint program, damaged files for
    /// the hexfile program and any lines for the round program.
    pub rounds: usize,
    /// Failures after which the run stops.
    pub stop: usize,
    /// How long to wait for an answer.
    pub wait: Duration,
    /// Whether each rule is shown with its count.
    pub rules: bool,
}

/// Scripts given to one process on a random card.
const SCRIPTS_PER_CARD: usize = 12;
/// Damaged cards given to the wire program.
const WIRE_DAMAGES: usize = 2 * DAMAGES;
/// Random codes whose CRC-8 is taken by the polynomial and by figure 4.
const CODES: usize = 20_000;
/// Bounds on the search for a shorter script.
const SHRINK_RUNS: usize = 400;
const SHRINK_TIME: Duration = Duration::from_secs(15);

/// A test run.
struct Tester {
    options: Options,
    /// Where card files are kept during the run.
    folder: PathBuf,
    passed: usize,
    failed: usize,
    cards: usize,
    scripts: usize,
    events: usize,
    recordings: usize,
    pages: usize,
    files: usize,
    rounds: usize,
}

/// One script to be written: its name, how, and whether it is cut and disturbed.
#[derive(Clone, Copy)]
struct Plan {
    name: &'static str,
    tell: fn(&mut Bench<'_>),
    wild: bool,
}

impl Plan {
    fn of(story: &Story, wild: bool) -> Plan {
        Plan {
            name: story.name,
            tell: story.tell,
            wild,
        }
    }
}

/// A seed of its own for part of a run.
fn seed_for(seed: u64, part: u64, number: usize) -> Rng {
    let mixed = Rng::new(seed ^ part << 56).bits();
    Rng::new(mixed.wrapping_add(number as u64))
}

/// Runs everything asked for; whether nothing failed.
pub fn run(options: Options) -> bool {
    let start = Instant::now();
    println!("seed {}", options.seed);
    let name = format!("wire-model-{}", std::process::id());
    let folder = std::env::temp_dir().join(name);
    if let Err(error) = fs::create_dir_all(&folder) {
        println!("cannot make {}: {error}", folder.display());
        println!("0 passed, 1 failed");
        return false;
    }
    let mut tester = Tester {
        options,
        folder,
        passed: 0,
        failed: 0,
        cards: 0,
        scripts: 0,
        events: 0,
        recordings: 0,
        pages: 0,
        files: 0,
        rounds: 0,
    };
    let mut book = Book::new(None);
    let mut played = Book::new(None);
    let mut rounds = Book::new(None);
    tester.run_codes(&book);
    if let Some(command) = tester.options.list.clone() {
        tester.run_list(&command, &mut book);
    }
    if let Some(command) = tester.options.wire.clone() {
        tester.run_wire(&command, &mut book);
    }
    if let Some(command) = tester.options.playback.clone() {
        tester.run_playback(&command, &mut played);
    }
    if let Some(command) = tester.options.setpoint.clone() {
        let linked = tester.options.linked.clone();
        let linked = linked.unwrap_or_else(|| command.clone());
        tester.run_setpoint(&command, &linked, &mut book);
    }
    if let Some(command) = tester.options.hexfile.clone() {
        let linked = tester.options.hexfile_linked.clone();
        let linked = linked.unwrap_or_else(|| command.clone());
        tester.run_hexfile(&command, &linked, &mut book);
    }
    if let Some(command) = tester.options.round.clone() {
        let linked = tester.options.round_linked.clone();
        let linked = linked.unwrap_or_else(|| command.clone());
        tester.run_round(&command, &linked, &mut rounds);
    }
    tester.judge_rules(&book, &played, &rounds);
    // The folder holds card files alone; a leftover does no harm.
    let _ = fs::remove_dir_all(&tester.folder);
    println!(
        "{} cards, {} scripts, {} events, {} recordings, {} pages, {} files, {} rounds, {:.1} s",
        tester.cards,
        tester.scripts,
        tester.events,
        tester.recordings,
        tester.pages,
        tester.files,
        tester.rounds,
        start.elapsed().as_secs_f64()
    );
    println!("{} passed, {} failed", tester.passed, tester.failed);
    tester.failed == 0
}

impl Tester {
    /// Whether enough has failed.
    fn is_over(&self) -> bool {
        self.failed >= self.options.stop
    }

    /// Names the rules that the run should have reached and has not; the playback and the round program have books of
    /// their own.
    fn judge_rules(&mut self, book: &Book, played: &Book, rounds: &Book) {
        if self.is_over() {
            println!("stopped early: what was not run counts as failed, rules are not judged");
            return;
        }
        let count = |rule: Rule, place: Place| match place {
            Place::Playback | Place::PlaybackAndWire => played.count(rule),
            Place::Round | Place::RoundAndList => rounds.count(rule),
            _ => book.count(rule),
        };
        if self.options.rules {
            for (rule, place, text) in RULES {
                println!("{:>9} {place:?}: {text}", count(*rule, *place));
            }
        }
        let asked = |place: Place| match place {
            Place::List => self.options.list.is_some(),
            Place::Wire => self.options.wire.is_some(),
            Place::Playback => self.options.playback.is_some(),
            Place::PlaybackAndWire => {
                self.options.playback.is_some() && self.options.wire.is_some()
            }
            Place::Setpoint => self.options.setpoint.is_some(),
            Place::Hexfile => self.options.hexfile.is_some(),
            Place::Round => self.options.round.is_some(),
            Place::RoundAndList => self.options.round.is_some() && self.options.list.is_some(),
            Place::Lent => false,
        };
        let rules = RULES.iter().filter(|(_, place, _)| asked(*place));
        let (met, missed): (Vec<_>, Vec<_>) =
            rules.partition(|(rule, place, _)| count(*rule, *place) > 0);
        println!(
            "{} of {} rules reached",
            met.len(),
            met.len() + missed.len()
        );
        for (_, _, text) in &missed {
            println!("rule not reached: {text}");
        }
        self.failed += missed.len();
    }

    /// Counts one comparison.
    fn count(&mut self, agrees: bool) {
        if agrees {
            self.passed += 1;
        } else {
            self.failed += 1;
        }
    }

    /// The model's two ways to the CRC-8 of a code: the code of zeros, then random ones, every other
    /// made good. Counts once.
    fn run_codes(&mut self, book: &Book) {
        let mut rng = seed_for(self.options.seed, 6, 0);
        let mut differ = 0;
        for number in 0..CODES {
            let mut bytes = rng.bits().to_le_bytes();
            if number == 0 {
                bytes = [0; 8];
            } else if number % 2 == 0 {
                bytes[7] = crc8(&bytes[..7]);
            }
            let mut figure = Figure4::reading(0);
            figure.take(&bytes[..7], book);
            let same = figure.byte() == crc8(&bytes[..7]);
            figure.take(&bytes[7..], book);
            let code = u64::from_le_bytes(bytes);
            let cleared = figure.byte() == 0;
            let fits = match check_of(code) {
                Check::Good => cleared && code != 0,
                Check::Bad => !cleared,
                Check::Zeros => cleared && code == 0,
            };
            if !same || !fits {
                if differ == 0 {
                    let seed = self.options.seed;
                    println!("DIFFERENCE: figure 4, code {code:016X}, {number} of seed {seed}");
                }
                differ += 1;
            }
        }
        println!("{CODES} codes by the polynomial and by figure 4, {differ} differ");
        self.count(differ == 0);
    }

    /// The list program on good and damaged cards.
    fn run_list(&mut self, command: &str, book: &mut Book) {
        let seed = self.options.seed;
        let styles = [
            Style::Full,
            Style::Deep,
            Style::Twins,
            Style::Mixed,
            Style::OneZero,
            Style::Zeros,
            Style::NearZero(0),
            Style::NearZero(1),
            Style::NearZero(2),
            Style::NearZero(3),
        ];
        let styled = 17 + styles.len();
        let fixed = styled + 2 * DAMAGES;
        let total = fixed + self.options.cards;
        for number in 0..total {
            if self.is_over() {
                self.failed += total - number;
                return;
            }
            let mut rng = seed_for(seed, 1, number);
            let card = match number {
                0..=16 => card_of(&mut rng, number),
                _ if number < styled => good_card(&mut rng, styles[number - 17]),
                _ if number < fixed => damaged_card(&mut rng, (number - styled) % DAMAGES),
                _ if rng.chance(60) => good_card(&mut rng, Style::Any),
                _ => {
                    let damage = rng.below(DAMAGES);
                    damaged_card(&mut rng, damage)
                }
            };
            self.cards += 1;
            let want = list(&card, book);
            let got = self.list_output(command, &card);
            self.count(got == want);
            if got != want {
                self.report_list(command, number, card);
            }
        }
    }

    /// What the list program writes for a card.
    fn list_output(&self, command: &str, card: &[u8]) -> String {
        let mut program = Program::start(command, None, self.options.wait);
        program.send(card);
        String::from_utf8_lossy(&program.end().0).into_owned()
    }

    /// Shows a difference of the list program on a card made as short as can be.
    fn report_list(&self, command: &str, number: usize, mut card: Vec<u8>) {
        let wanted = |card: &[u8]| list(card, &mut Book::new(None));
        println!(
            "\nDIFFERENCE: list, card {number} of seed {}",
            self.options.seed
        );
        println!("card: {}", hex(&card));
        let start = Instant::now();
        let mut at = 0;
        while at < card.len() && start.elapsed() < SHRINK_TIME {
            let mut shorter = card.clone();
            shorter.drain(at..(at + 12).min(card.len()));
            if self.list_output(command, &shorter) == wanted(&shorter) {
                at += 12;
            } else {
                card = shorter;
            }
        }
        println!("shorter card: {}", hex(&card));
        println!("model:\n{}", wanted(&card));
        println!("program:\n{}", self.list_output(command, &card));
    }

    /// The wire program on scripts, refused cards and missing ones.
    fn run_wire(&mut self, command: &str, book: &mut Book) {
        let seed = self.options.seed;
        let random = Plan {
            name: "walk",
            tell: walk,
            wild: true,
        };
        // Each story on its own line, first as it stands, then disturbed.
        for (number, story) in STORIES.iter().enumerate() {
            let mut rng = seed_for(seed, 2, number);
            let card = good_card(&mut rng, story.style);
            let plans = [Plan::of(story, false), Plan::of(story, true), random];
            self.run_card(command, &card, rng, &plans, false, book);
        }
        // One event at a time.
        for number in 0..2 {
            let mut rng = seed_for(seed, 3, number);
            let card = good_card(&mut rng, Style::Mixed);
            let plans = ["copy", "pio write"].map(|name| {
                let story = STORIES.iter().find(|story| story.name == name);
                Plan::of(story.expect("a known story"), false)
            });
            self.run_card(command, &card, rng, &plans, true, book);
        }
        self.run_refused(command, book);
        // Random stories on random lines.
        let mut number = 0;
        while number < self.options.scripts {
            let mut rng = seed_for(seed, 4, number);
            let style = rng.pick(&[
                Style::OneMemory,
                Style::OneMemory,
                Style::OnePio,
                Style::Mixed,
                Style::Mixed,
                Style::Twins,
                Style::Any,
                Style::Any,
                Style::Full,
                Style::Deep,
            ]);
            let card = good_card(&mut rng, style);
            let count = SCRIPTS_PER_CARD.min(self.options.scripts - number);
            let plans: Vec<Plan> = (0..count)
                .map(|_| match rng.below(3) {
                    0 => Plan::of(&STORIES[rng.below(STORIES.len())], true),
                    _ => random,
                })
                .collect();
            self.run_card(command, &card, rng, &plans, false, book);
            number += count;
        }
    }

    /// Writes the card file.
    fn card_file(&self, card: &[u8]) -> PathBuf {
        let path = self.folder.join("card");
        fs::write(&path, card).expect("a card file in the temporary folder");
        path
    }

    /// Scripts for one card, in one process as long as it agrees.
    fn run_card(
        &mut self,
        command: &str,
        card: &[u8],
        mut rng: Rng,
        plans: &[Plan],
        singly: bool,
        book: &mut Book,
    ) {
        let path = self.card_file(card);
        let mut plans = plans.iter();
        while plans.len() > 0 {
            if self.is_over() {
                self.failed += plans.len();
                return;
            }
            let mut program = Program::start(command, Some(&path), self.options.wait);
            let mut bench = Bench::new(card, Rng::new(rng.bits()), book);
            let mut sent = Vec::new();
            let mut agrees = true;
            for plan in plans.by_ref() {
                bench.wild = plan.wild;
                (plan.tell)(&mut bench);
                let script = bench.take_script();
                sent.extend(&script.text);
                self.scripts += 1;
                self.events += script.answers.len();
                let got = ask(&mut program, &script, singly);
                agrees = got == script.answers;
                self.count(agrees);
                if !agrees {
                    self.report_wire(command, card, plan.name, &sent, &script, &got);
                    break;
                }
            }
            let tail = bench.end();
            if agrees {
                program.send(&tail.text);
                let (rest, ended) = program.end();
                self.count(rest == tail.answers && ended);
                if rest != tail.answers || !ended {
                    println!("\nDIFFERENCE: wire, end of input");
                    println!("card: {}", hex(card));
                    println!("last characters: {:?}", String::from_utf8_lossy(&tail.text));
                    println!(
                        "output after the last answer: {:?}",
                        String::from_utf8_lossy(&rest)
                    );
                    println!("the program has ended by itself: {ended}");
                }
            }
        }
    }

    /// Shows a difference of the wire program on a script made as short as can be.
    fn report_wire(
        &self,
        command: &str,
        card: &[u8],
        name: &str,
        sent: &[u8],
        script: &Script,
        got: &[u8],
    ) {
        println!(
            "\nDIFFERENCE: wire, script {name:?} of seed {}",
            self.options.seed
        );
        println!("card: {}", hex(card));
        let at = first_difference(&script.answers, got);
        let before = split_events(sent).len() - split_events(&script.text).len();
        println!(
            "event {at} of the script, {} since set-up: model {}, program {}",
            before + at,
            shown(&script.answers, at),
            shown(got, at)
        );
        let Some(events) = self.shrink(command, card, sent) else {
            println!("not seen again in one go: answers may come late or not at all");
            println!("{}", rows(&script.text, &script.answers, got));
            return;
        };
        let text = events.concat();
        let want = model_answers(card, &text);
        let got = self.wire_output(command, card, &text);
        println!("shortest script found, {} events:", events.len());
        println!("{}", rows(&text, &want, &got));
    }

    /// What the wire program answers to a whole script.
    fn wire_output(&self, command: &str, card: &[u8], text: &[u8]) -> Vec<u8> {
        let path = self.card_file(card);
        let mut program = Program::start(command, Some(&path), self.options.wait);
        program.send(text);
        program.end().0
    }

    /// The events of a script that still shows a difference, or none if it shows none.
    fn shrink(&self, command: &str, card: &[u8], text: &[u8]) -> Option<Vec<Vec<u8>>> {
        let found = shortest(&split_events(text), |events: &[Vec<u8>]| {
            let text = events.concat();
            let want = model_answers(card, &text);
            let got = self.wire_output(command, card, &text);
            // The events up to the first difference.
            let at = first_difference(&want, &got);
            (got != want).then(|| (events[..(at + 1).min(events.len())].to_vec(), ()))
        });
        found.map(|(events, ())| events)
    }

    /// Refused cards, a missing file and a missing argument.
    fn run_refused(&mut self, command: &str, book: &mut Book) {
        for number in 0..WIRE_DAMAGES {
            let mut rng = seed_for(self.options.seed, 5, number);
            let card = damaged_card(&mut rng, number % DAMAGES);
            let text = b"2 1013";
            let want = match Wire::open(&card, book) {
                Ok(_) => model_answers(&card, text),
                Err(line) => line.into_bytes(),
            };
            if self.is_over() {
                self.failed += 1;
                continue;
            }
            self.cards += 1;
            let got = self.wire_output(command, &card, text);
            self.count(got == want);
            if got != want {
                println!(
                    "\nDIFFERENCE: wire, damaged card of seed {}",
                    self.options.seed
                );
                println!("card: {}", hex(&card));
                println!("model: {:?}", String::from_utf8_lossy(&want));
                println!("program: {:?}", String::from_utf8_lossy(&got));
            }
        }
        let missing = self.folder.join("missing");
        let errors = self.folder.join("errors");
        for path in [Some(missing.as_path()), None] {
            if self.is_over() {
                self.failed += 1;
                continue;
            }
            let program = Program::start_noting(command, path, self.options.wait, &errors);
            let (mut said, ended) = program.end();
            said.extend(fs::read(&errors).unwrap_or_default());
            let clear = said.iter().any(u8::is_ascii_graphic) && ended;
            self.count(clear);
            if !clear {
                println!("\nDIFFERENCE: wire, no clear line for a missing file or argument");
            }
        }
    }
}

/// The fewest items found that still differ, with what they show, or none if they do not differ. A try answers
/// the items that it keeps and what it has shown.
fn shortest<T: Clone, S>(
    items: &[T],
    mut differing: impl FnMut(&[T]) -> Option<(Vec<T>, S)>,
) -> Option<(Vec<T>, S)> {
    let start = Instant::now();
    let mut runs = 0;
    let (mut items, mut shows) = differing(items)?;
    let mut part = items.len() / 2;
    while part > 0 {
        let mut at = 0;
        while at < items.len() {
            if runs == SHRINK_RUNS || start.elapsed() > SHRINK_TIME {
                return Some((items, shows));
            }
            runs += 1;
            let mut shorter = items.clone();
            shorter.drain(at..(at + part).min(items.len()));
            match differing(&shorter) {
                Some(found) => (items, shows) = found,
                None => at += part,
            }
        }
        part /= 2;
    }
    Some((items, shows))
}

/// Puts a script to a program, at once or event by event, and gives its answers.
fn ask(program: &mut Program, script: &Script, singly: bool) -> Vec<u8> {
    if !singly {
        program.send(&script.text);
        return program.receive(script.answers.len());
    }
    let mut got = Vec::new();
    for (event, want) in split_events(&script.text).iter().zip(&script.answers) {
        program.send(event);
        let answer = program.receive(1);
        got.extend(&answer);
        if answer != [*want] {
            break;
        }
    }
    got
}

/// The model's answers to a script on a fresh line.
fn model_answers(card: &[u8], text: &[u8]) -> Vec<u8> {
    let mut book = Book::new(None);
    let mut wire = Wire::open(card, &mut book).expect("a good card");
    let taken = text.iter().filter_map(|at| wire.take(*at, &mut book));
    taken.collect()
}

/// An answer as it is shown.
fn shown(answers: &[u8], at: usize) -> String {
    answers.get(at).map_or("nothing".into(), |answer| {
        format!("{:?}", char::from(*answer))
    })
}
