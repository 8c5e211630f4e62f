//! Runs the library's functions on lent lines that no history need reach, and holds every
//! answer and every byte against the model, and lists of one set of codes against one another.

pub mod calls;
mod classes;
mod damages;
mod lines;
mod lists;
mod run_classes;
mod runs;
mod scripts;
mod stories;
pub mod trouble;

use std::time::{Duration, Instant};

use crate::gen::rng::Rng;
use crate::model::book::{Book, Place, Rule, RULES};
use crate::model::lent::{Lent, Run};
use crate::model::memory::IMAGE;
use crate::model::record::RECORD;
use crate::program::Program;
use crate::report::hex;
use calls::Call;
use classes::{classes, Classes, SIZES};
use damages::damages;

/// What to run.
pub struct Options {
    /// Command line of the driver.
    pub command: String,
    pub seed: u64,
    /// Random lines; damages, cards and searches follow from it.
    pub lines: usize,
    /// Failures after which the run stops.
    pub stop: usize,
    /// How long to wait for an answer.
    pub wait: Duration,
    /// Whether each class is shown with its count.
    pub rules: bool,
}

/// Calls with what the model answers to each.
#[derive(Default)]
struct Script {
    lent: Lent,
    calls: Vec<Call>,
    answers: Vec<Vec<u8>>,
    /// The line before each call.
    tables: Vec<Vec<u8>>,
    /// Whether all lines have one set of codes, so that searches with equally many places answer alike.
    one_set: bool,
}

impl Script {
    /// Adds a call; the first four bytes of the answer as a number.
    fn add(&mut self, call: Call, book: &mut Book) -> i32 {
        self.tables.push(self.lent.table.clone());
        let answer = call.answer(&mut self.lent, book);
        self.calls.push(call);
        let first = answer[..4].try_into().expect("four bytes");
        self.answers.push(answer);
        i32::from_le_bytes(first)
    }

    /// Adds an event with its chip and levels.
    fn event(&mut self, (event, chip, levels): (u32, u32, u32), book: &mut Book) -> i32 {
        let call = Call::Event {
            event,
            chip,
            levels,
        };
        self.add(call, book)
    }

    /// Adds a run of slots.
    fn run(&mut self, run: Run, book: &mut Book) -> i32 {
        self.add(Call::Run(run), book)
    }

    /// Adds a search into this list.
    fn search(&mut self, list: Vec<u64>, book: &mut Book) -> i32 {
        self.add(Call::Search { list }, book)
    }

    /// Lends a line.
    fn lend(&mut self, lent: Lent, book: &mut Book) {
        self.add(Call::Lend(lent), book);
    }

    /// The calls as bytes.
    fn bytes(&self) -> Vec<u8> {
        self.calls.iter().flat_map(Call::bytes).collect()
    }

    /// What the driver wrote as an answer for each call; short ones where it wrote too little.
    fn answered<'a>(&self, got: &'a [u8]) -> Vec<&'a [u8]> {
        let mut rest = got;
        let mut next = |want: &Vec<u8>| {
            let (answer, later) = rest.split_at(want.len().min(rest.len()));
            rest = later;
            answer
        };
        self.answers.iter().map(&mut next).collect()
    }

    /// The first call that is not answered as the model answers it.
    fn first_difference(&self, got: &[&[u8]]) -> Option<usize> {
        let mut pairs = self.answers.iter().zip(got);
        pairs.position(|(want, got)| want != got)
    }
}

/// A test run.
struct Tester {
    options: Options,
    start: Instant,
    program: Program,
    book: Book,
    classes: Classes,
    passed: usize,
    failed: usize,
    calls: usize,
}

/// A seed of its own for part of a run.
fn seed_for(seed: u64, part: u64, number: usize) -> Rng {
    let mixed = Rng::new(seed ^ part << 48).bits();
    Rng::new(mixed.wrapping_add(number as u64))
}

/// Runs everything; whether nothing failed.
pub fn run(options: Options) -> bool {
    println!("library: seed {}", options.seed);
    let program = Program::start(&options.command, None, options.wait);
    let mut tester = Tester {
        start: Instant::now(),
        program,
        book: Book::new(None),
        classes: Classes::default(),
        passed: 0,
        failed: 0,
        calls: 0,
        options,
    };
    tester.run_all();
    tester.judge_classes();
    println!(
        "library: {} scripts, {} calls, {:.1} s",
        tester.passed + tester.failed,
        tester.calls,
        tester.start.elapsed().as_secs_f64()
    );
    println!("{} passed, {} failed", tester.passed, tester.failed);
    tester.failed == 0
}

impl Tester {
    /// Every part: fixed numbers of each fault, then random lines.
    fn run_all(&mut self) {
        let lines = self.options.lines;
        let each = lines / 400 + 2;
        self.repeat(1, 1, |tester, _, _| tester.sizes());
        let all = damages();
        self.repeat(2, each * all.len(), |tester, rng, number| {
            tester.damaged(rng, &all[number % all.len()])
        });
        self.repeat(3, 4 * each * SIZES.len(), Tester::wrong_size);
        self.repeat(7, 16 * each, Tester::short_address);
        self.repeat(9, 4 * run_classes::LENGTHS.len(), Tester::run_of_length);
        self.repeat(
            10,
            each * run_classes::SIZES.len(),
            Tester::run_of_wrong_size,
        );
        self.repeat(11, lines / 4, Tester::cut_run);
        self.repeat(12, (lines / 2500 + 2) * stories::COUNT, Tester::story);
        let numbers = trouble::COUNTS * each;
        self.repeat(trouble::PART, numbers, |tester, rng, number| {
            trouble::script(rng, number, &mut tester.book, &mut tester.classes)
        });
        self.repeat(4, lines / 4, Tester::card);
        self.repeat(5, lines / 12, Tester::search);
        self.repeat(6, lines, Tester::line);
    }

    /// Runs scripts of one part until enough has failed.
    fn repeat(
        &mut self,
        part: u64,
        count: usize,
        script: impl Fn(&mut Tester, &mut Rng, usize) -> Script,
    ) {
        for number in 0..count {
            if self.failed >= self.options.stop {
                self.failed += count - number;
                return;
            }
            let mut rng = seed_for(self.options.seed, part, number);
            let script = script(self, &mut rng, number);
            self.calls += script.calls.len();
            if self.agrees(&script) {
                self.passed += 1;
            } else {
                println!("part {part}, script {number} of seed {}", self.options.seed);
                self.failed += 1;
                let options = &self.options;
                self.program = Program::start(&options.command, None, options.wait);
            }
        }
    }

    /// Puts a script to the driver; shows the first call on which it differs from the model, and the first
    /// fault in its lists.
    fn agrees(&mut self, script: &Script) -> bool {
        self.program.send(&script.bytes());
        let size = script.answers.iter().map(Vec::len).sum();
        let got = self.program.receive(size);
        let got = script.answered(&got);
        let difference = script.first_difference(&got);
        if let Some(number) = difference {
            self.report(script, number, got[number]);
        }
        let fault = lists::fault(script, &got);
        if let Some(fault) = fault {
            fault.report(script, &got);
        }
        difference.is_none() && fault.is_none()
    }

    /// Shows a call on which driver and model differ.
    fn report(&self, script: &Script, number: usize, got: &[u8]) {
        let want = &script.answers[number];
        println!(
            "\nDIFFERENCE: call {number}: {}",
            script.calls[number].shown()
        );
        println!("table before, a record a row:");
        let table = match &script.calls[number] {
            Call::Lend(lent) => &lent.table,
            Call::Card { table, .. } => table,
            _ => &script.tables[number],
        };
        for record in table.chunks(RECORD) {
            println!("  {}", hex(record));
        }
        if let Call::Card { card, .. } = &script.calls[number] {
            println!("card: {}", hex(card));
        }
        println!("model:   {}", hex(want));
        println!("library: {}", hex(got));
        let same = want.iter().zip(got).take_while(|(want, got)| want == got);
        println!("first difference at byte {} of the answer", same.count());
        if got.len() == want.len() {
            self.report_images(script, number);
        }
    }

    /// Shows where the images differ after a call, if they do.
    fn report_images(&self, script: &Script, number: usize) {
        let mut program = Program::start(&self.options.command, None, self.options.wait);
        let mut lent = Lent::default();
        let mut book = Book::new(None);
        for call in script.calls[..=number].iter().chain([&Call::Images]) {
            program.send(&call.bytes());
            let want = call.answer(&mut lent, &mut book);
            let got = program.receive(want.len());
            if matches!(call, Call::Images) && got != want {
                let places = want.iter().zip(&got).enumerate().skip(4);
                for (at, (want, got)) in places.filter(|(_, (want, got))| want != got).take(40) {
                    let (chip, address) = ((at - 4) / IMAGE, (at - 4) % IMAGE);
                    println!("image {chip} at {address:04X}: model {want:02X}, library {got:02X}");
                }
            }
        }
    }

    /// Names the classes and rules that the run should have reached and has not.
    fn judge_classes(&mut self) {
        if self.failed >= self.options.stop {
            println!("stopped early: what was not run counts as failed, classes are not judged");
            return;
        }
        let mut wanted = classes();
        wanted.extend(run_classes::classes());
        wanted.extend(damages().into_iter().map(|damage| damage.name));
        let mut counts: Vec<(String, u64)> = wanted
            .into_iter()
            .map(|name| (name.clone(), self.classes.count(&name)))
            .collect();
        // Refusals 8 and 5 are judged before the model's line, and counted as damages and sizes.
        let counted = [Rule::Refusal8, Rule::Refusal5];
        for (rule, place, text) in RULES {
            if *place == Place::Lent && !counted.contains(rule) {
                counts.push((format!("rule: {text}"), self.book.count(*rule)));
            }
        }
        if self.options.rules {
            for (name, count) in &counts {
                println!("{count:>9} {name}");
            }
        }
        let missed = counts.iter().filter(|(_, count)| *count == 0);
        let missed: Vec<&String> = missed.map(|(name, _)| name).collect();
        println!(
            "library: {} of {} classes reached",
            counts.len() - missed.len(),
            counts.len()
        );
        for name in &missed {
            println!("class not reached: {name}");
        }
        self.failed += missed.len();
    }
}
