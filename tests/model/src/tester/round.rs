//! The round program on lines of every sort, with images, places and page buffers, and on words that it does not have.

use std::fs::File;
use std::process::Stdio;

use super::setpoint::shown;
use super::steps::{fits_usage, word, Judge, Start, Step};
use super::{seed_for, shortest, Tester};
use crate::gen::rng::Rng;
use crate::gen::rounds::{self, card_of, other_words, shuffle, Opt, Trial, Unit, EXAMPLES};
use crate::model::book::{Book, Rule};
use crate::model::round::notes::note;
use crate::model::round::words::{round_said, Said};
use crate::report::hex;

/// Trials of any sort in each round of the tester.
const ANY: usize = 120;
/// From this size on a card is sent while the output is awaited.
const FAR: usize = 60_000;
/// Most bytes of a card that are shown.
const SHOWN: usize = 204;

/// A way to give a card.
#[derive(Clone, Copy, PartialEq, Eq, Debug)]
enum Way {
    /// All at once.
    Whole,
    /// Byte by byte.
    Bytes,
    /// In pieces of any size.
    Pieces,
    /// Its end late: nothing may be printed before.
    EndLate,
}

/// A group of trials, from a seed.
type Group = fn(&mut Rng) -> Vec<Trial>;

/// The groups of trials.
const GROUPS: [Group; 9] = [
    rounds::counts,
    rounds::shapes,
    rounds::told,
    rounds::places,
    rounds::buffers,
    rounds::files,
    rounds::several,
    rounds::refused,
    rounds::orders,
];

impl Tester {
    /// Everything that the round program is tried on. Most starts are of the linked program.
    pub(super) fn run_round(&mut self, command: &str, linked: &str, book: &mut Book) {
        let seed = self.options.seed;
        for command in [command, linked] {
            self.run_examples(command);
        }
        self.run_round_usage(linked, &mut seed_for(seed, 32, 0), book);
        self.run_round_ends(command, linked, &mut seed_for(seed, 34, 0), book);
        self.run_card_ways(linked, &mut seed_for(seed, 33, 0), book);
        let mut trials = Vec::new();
        for (number, group) in GROUPS.iter().enumerate() {
            trials.extend(group(&mut seed_for(seed, 30, number)));
        }
        // In any order, so that each sort comes soon.
        let mut rng = seed_for(seed, 31, 0);
        shuffle(&mut rng, &mut trials);
        for trial in &trials {
            self.try_round(linked, trial, Way::Whole, &mut rng, book);
        }
        self.run_turned(linked, &mut seed_for(seed, 35, 0), book);
        if let Some(list) = self.options.list.clone() {
            self.run_beside_list(linked, &list, &mut seed_for(seed, 36, 0), book);
        }
        for number in 0..ANY * self.options.rounds.max(1) {
            let mut rng = seed_for(seed, 37, number);
            let trial = rounds::any(&mut rng);
            self.try_round(linked, &trial, Way::Whole, &mut rng, book);
        }
    }

    /// The papers' examples; what they print is told by the papers alone.
    fn run_examples(&mut self, command: &str) {
        for (chips, words, text) in EXAMPLES {
            let words: Vec<Vec<u8>> = words.iter().map(|text| word(text)).collect();
            let card = card_of(chips);
            let want = Said {
                printed: word(text),
                errors: Vec::new(),
            };
            let steps = [Step::Send(&card)];
            self.try_words(command, "an example", &words, &card, &steps, &want);
        }
    }

    /// Words that are not the program's, whatever its input is.
    fn run_round_usage(&mut self, command: &str, rng: &mut Rng, book: &mut Book) {
        let file = self.file(b"some bytes");
        let file = String::from_utf8_lossy(&file).into_owned();
        let good = card_of(&[(1, 0x43), (2, 0x3A), (1, 1), (1, 2)]);
        let wrong = card_of(&[(1, 0x43), (3, 0x3A)]);
        for (number, words) in other_words(rng, &file).into_iter().enumerate() {
            let name = "other words";
            let card = if number % 4 == 2 { &wrong } else { &good };
            let want = round_said(&words, None, card, &mut Book::new(None));
            let agrees = match number % 4 {
                0 => self.try_words(command, name, &words, &[], &[Step::Ends], &want),
                3 => {
                    let folder = File::open(&self.folder).expect("the temporary folder");
                    self.try_from(command, name, &words, &[], folder.into(), &[], &want)
                }
                _ => self.try_words(command, name, &words, card, &[Step::Send(card)], &want),
            };
            if agrees.1 {
                note(&words, None, card, &agrees.0, book);
                book.saw_if(number % 4 == 0, Rule::RoundUsageOpen);
                book.saw_if(number % 4 == 3, Rule::RoundUsageUnread);
                book.saw_if(words.contains(&word("missing")), Rule::RoundUsageFile);
            }
        }
    }

    /// Cards that come in pieces, or whose end is late.
    fn run_card_ways(&mut self, command: &str, rng: &mut Rng, book: &mut Book) {
        let ways = [
            (Way::Bytes, Rule::RoundByByte),
            (Way::Pieces, Rule::RoundInPieces),
            (Way::EndLate, Rule::RoundEndLate),
        ];
        for units in rounds::some_lines(rng) {
            for (way, rule) in ways {
                let trial = Trial {
                    name: "a card in pieces",
                    units: units.clone(),
                    card: None,
                    options: vec![Opt::Images],
                };
                let agrees = self.try_round(command, &trial, way, rng, book).1;
                book.saw_if(agrees, rule);
            }
        }
        // Without chips, the card a device that is empty.
        let nothing = File::open("/dev/null").expect("an empty device");
        let want = round_said(&[], None, &[], &mut Book::new(None));
        self.try_from(command, "no card", &[], &[], nothing.into(), &[], &want);
    }

    /// The same chips with their images in another order, and with one more switch of a code that is there: the
    /// program is held against itself.
    fn run_turned(&mut self, command: &str, rng: &mut Rng, book: &mut Book) {
        for mut units in rounds::turned(rng) {
            let trial = |units: &[Unit]| Trial {
                name: "the same codes and images",
                units: units.to_vec(),
                card: None,
                options: vec![Opt::Images],
            };
            let first = self.try_round(command, &trial(&units), Way::Whole, rng, book);
            shuffle(rng, &mut units);
            let turned = self.try_round(command, &trial(&units), Way::Whole, rng, book);
            let place = rng.below(units.len() + 1);
            let twin = rounds::twin(rng, &units);
            units.insert(place, twin);
            let added = self.try_round(command, &trial(&units), Way::Whole, rng, book);
            for (other, rule) in [(turned, Rule::RoundTurned), (added, Rule::RoundTwinAdded)] {
                let same = other.0 == first.0;
                if !same && first.1 && other.1 {
                    println!("\nDIFFERENCE: round, the same codes and images, another output");
                    self.failed += 1;
                }
                book.saw_if(same && first.1 && other.1, rule);
            }
        }
    }

    /// The lines of the codes are those of the list program.
    fn run_beside_list(&mut self, command: &str, list: &str, rng: &mut Rng, book: &mut Book) {
        for units in rounds::turned(rng).into_iter().step_by(2) {
            if self.is_over() {
                self.failed += 1;
                continue;
            }
            let trial = Trial {
                name: "beside list",
                units,
                card: None,
                options: vec![],
            };
            let listed = self.list_output(list, &trial.card());
            let (said, agrees) = self.try_round(command, &trial, Way::Whole, rng, book);
            let codes = listed.lines().count().saturating_sub(1);
            let printed = String::from_utf8_lossy(&said.printed).into_owned();
            let same = listed.lines().take(codes).eq(printed.lines().take(codes));
            self.count(same);
            book.saw_if(same && agrees && codes > 0, Rule::RoundList);
            if !same {
                println!("\nDIFFERENCE: round, the codes are not as list writes them");
                println!("list:\n{listed}\nround:\n{printed}");
            }
        }
    }

    /// Puts a trial to the program and holds what it says against the model; what it says, and whether they agree.
    fn try_round(
        &mut self,
        command: &str,
        trial: &Trial,
        way: Way,
        rng: &mut Rng,
        book: &mut Book,
    ) -> (Said, bool) {
        if self.is_over() {
            self.failed += 1;
            return (Said::default(), false);
        }
        let card = trial.card();
        let file = trial.file();
        let path = file.as_ref().map(|bytes| self.file(bytes));
        let words = trial.words(&path.unwrap_or_default());
        let want = round_said(&words, file.as_deref(), &card, &mut Book::new(None));
        let mut steps = Vec::new();
        match way {
            Way::Whole if card.len() < FAR => steps.push(Step::Send(&card)),
            Way::Whole => steps.push(Step::Pour(&card)),
            Way::EndLate => steps.extend([Step::Send(&card), Step::Silent]),
            Way::Bytes | Way::Pieces => {
                let mut rest = &card[..];
                while !rest.is_empty() {
                    let size = if way == Way::Bytes {
                        1
                    } else {
                        rng.between(1, 40)
                    };
                    let (piece, later) = rest.split_at(size.min(rest.len()));
                    steps.extend([Step::Send(piece), Step::Pause]);
                    rest = later;
                }
            }
        }
        let name = format!("{}, given {way:?}", trial.name);
        let (said, agrees) = self.try_words(command, &name, &words, &card, &steps, &want);
        if agrees {
            note(&words, file.as_deref(), &card, &said, book);
        } else if !self.is_over() || self.options.stop == self.failed {
            self.shrink_units(command, trial);
        }
        (said, agrees)
    }

    /// Starts the program with its input open and goes through the steps; what it says, and whether that is wanted.
    pub(super) fn try_words(
        &mut self,
        command: &str,
        name: &str,
        words: &[Vec<u8>],
        card: &[u8],
        steps: &[Step],
        want: &Said,
    ) -> (Said, bool) {
        self.try_from(command, name, words, card, Stdio::piped(), steps, want)
    }

    /// The same with another input.
    #[allow(clippy::too_many_arguments)]
    fn try_from(
        &mut self,
        command: &str,
        name: &str,
        words: &[Vec<u8>],
        card: &[u8],
        input: Stdio,
        steps: &[Step],
        want: &Said,
    ) -> (Said, bool) {
        if !self.is_over() {
            self.rounds += 1;
        }
        let start = Start {
            program: "round",
            command,
            name,
            words,
            given: &|| format!("card: {}", hex(&card[..card.len().min(SHOWN)])),
        };
        self.try_start(&start, input, steps, want, &Judge { fits, show })
    }

    /// Shows a line of fewer chips that is still answered otherwise.
    fn shrink_units(&self, command: &str, trial: &Trial) {
        if trial.card.is_some() || trial.units.is_empty() {
            return;
        }
        let found = shortest(&trial.units, |units: &[Unit]| {
            let fewer = Trial {
                units: units.to_vec(),
                ..trial.clone()
            };
            let card = fewer.card();
            let file = fewer.file();
            let path = file.as_ref().map(|bytes| self.file(bytes));
            let words = fewer.words(&path.unwrap_or_default());
            let want = round_said(&words, file.as_deref(), &card, &mut Book::new(None));
            let steps = [Step::Send(&card)];
            let (got, fault) = self.told_in_steps(command, &words, Stdio::piped(), &steps);
            let differs = !fits(&want, &got) || fault.is_some();
            differs.then(|| (units.to_vec(), (words, want, got)))
        });
        let Some((units, (words, want, got))) = found else {
            println!("not seen again in one go: it goes by the way it is given");
            return;
        };
        println!("fewest chips found, {}:", units.len());
        for unit in &units {
            let page = unit.image.get(..32).unwrap_or_default();
            println!(
                "kind {} code {:016X} page {}",
                unit.kind,
                unit.code,
                hex(page)
            );
        }
        let words: Vec<String> = words.iter().map(|word| shown(word)).collect();
        println!("words: {}", words.join(" "));
        show(&want, &got);
    }
}

/// Whether a program says what the model says; the words of a usage line are free.
fn fits(want: &Said, got: &Said) -> bool {
    fits_usage("round", want, got)
}

/// What model and program say.
fn show(want: &Said, got: &Said) {
    for (who, said) in [("model", want), ("program", got)] {
        println!("{who}:\n{}", String::from_utf8_lossy(&said.printed));
        if !said.errors.is_empty() {
            println!("on standard error: {}", shown(&said.errors));
        }
    }
}
