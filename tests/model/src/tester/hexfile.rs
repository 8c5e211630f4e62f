//! The hexfile program on files and images of every sort, and on words that it does not have.

use std::fs::File;
use std::process::Stdio;

use super::setpoint::shown;
use super::steps::{word, Judge, Start, Step};
use super::{seed_for, shortest, Tester};
use crate::gen::hexfaults::{self, damaged};
use crate::gen::hexfiles::{self, filled, images, other_words, own_text, some, Given, Spot};
use crate::gen::hexfiles::{Style, OWN, SIZES, TABLE};
use crate::gen::rng::Rng;
use crate::model::book::{Book, Rule};
use crate::model::hexfile::words::{hexfile, Said};
use crate::model::hexfile::{decided_at, read, record, Refusal, DATA, IMAGE, LINE};
use crate::report::first_difference;

/// Damaged files in each round.
const DAMAGED: usize = 250;
/// From this size on input is sent while the output is awaited.
const FAR: usize = 60_000;
/// A file of at most so many lines is made shorter where it is answered otherwise.
const SHRUNK: usize = 60;

/// Bytes that are shown of a long output.
const AROUND: usize = 48;

/// A way to give a file.
#[derive(Clone, Copy, PartialEq, Eq, Debug)]
enum Way {
    /// As standard input, all at once.
    Whole,
    /// By its name.
    Name,
    /// As standard input, byte by byte.
    Bytes,
    /// As standard input, in pieces of any size.
    Pieces,
    /// As standard input, in two pieces cut here.
    Cut(usize),
    /// As standard input, its end late: nothing may be printed before.
    EndLate,
    /// As standard input, up to the character that decides its refusal, and then left open.
    Open,
}

/// A group of files, from a seed.
type Group = fn(&mut Rng) -> Vec<Given>;

/// The groups of files.
const GROUPS: [Group; 7] = [
    hexfiles::good,
    hexfaults::pairs,
    hexfaults::after,
    hexfaults::long_lines,
    hexfaults::faults,
    hexfaults::characters,
    hexfaults::every_damage,
];

impl Tester {
    /// Everything that the hexfile program is tried on. Most starts are of the linked program.
    pub(super) fn run_hexfile(&mut self, command: &str, linked: &str, book: &mut Book) {
        let seed = self.options.seed;
        for command in [command, linked] {
            self.run_table(command, book);
        }
        self.run_writes(command, linked, &mut seed_for(seed, 20, 0), book);
        self.run_hex_usage(linked, &mut seed_for(seed, 22, 0), book);
        let mut files = Vec::new();
        for (number, group) in GROUPS.iter().enumerate() {
            files.extend(group(&mut seed_for(seed, 25, number)));
        }
        // In any order, so that each sort comes soon.
        let mut rng = seed_for(seed, 27, 0);
        for place in (1..files.len()).rev() {
            files.swap(place, rng.below(place + 1));
        }
        files.extend(hexfiles::long(&mut rng));
        for (number, given) in files.iter().enumerate() {
            let way = [Way::Whole, Way::Name, Way::Open, Way::Whole, Way::Open][number % 5];
            self.try_file(linked, given, way, &mut rng, book);
        }
        self.run_back(linked, &mut seed_for(seed, 21, 0), book);
        self.run_hex_ends(command, linked);
        self.run_waits(linked, &mut seed_for(seed, 23, 0), book);
        self.run_hex_ways(linked, &mut seed_for(seed, 24, 0), book);
        for number in 0..DAMAGED * self.options.rounds.max(1) {
            let mut rng = seed_for(seed, 26, number);
            let given = damaged(&mut rng);
            let way = [Way::Whole, Way::Open, Way::Name, Way::Pieces][number % 4];
            let (said, agrees) = self.try_file(linked, &given, way, &mut rng, book);
            let refused = said.printed.starts_with(b"refused ");
            book.saw_if(agrees && refused, Rule::HexDamaged);
            book.saw_if(agrees && !refused, Rule::HexDamagedRead);
        }
    }

    /// The papers' files, as standard input and by name; what they answer is told by the papers alone.
    fn run_table(&mut self, command: &str, book: &mut Book) {
        for (text, answer) in TABLE {
            let given = Given::new("a file of the papers", word(text));
            for way in [Way::Whole, Way::Name] {
                let (said, agrees) = self.try_file(command, &given, way, &mut Rng::new(0), book);
                let printed = match answer {
                    Ok(last) => [&[0xFF; IMAGE - 1][..], &[last]].concat(),
                    Err(number) => format!("refused {number}\n").into_bytes(),
                };
                if agrees && said.printed != printed {
                    println!("\nDIFFERENCE: hexfile, the papers answer {answer:?} to {text:?}");
                    self.failed += 1;
                }
            }
        }
    }

    /// Images of every sort and size to be written.
    fn run_writes(&mut self, command: &str, linked: &str, rng: &mut Rng, book: &mut Book) {
        let words = [word("write")];
        let mut all = images(rng);
        for size in SIZES {
            all.push(filled(rng, size));
        }
        // The text of an image, and sizes around the right one with all bytes the same.
        all.push(own_text(&filled(rng, IMAGE)));
        for byte in [0, 0xFF] {
            all.extend([IMAGE - 1, IMAGE + 1].map(|size| vec![byte; size]));
        }
        for (number, image) in all.iter().enumerate() {
            let right = image.len() == IMAGE;
            if number % 2 == 0 {
                let path = self.file(image);
                let words = [word("write"), path];
                let agrees = self.try_given(linked, "an image by name", &words, image, &[], book);
                book.saw_if(agrees && right, Rule::HexWroteByName);
            } else {
                let steps = self.whole(image);
                self.try_given(linked, "an image", &words, image, &[steps], book);
            }
        }
        let image = &all[all.len() / 2].clone();
        let image = if image.len() == IMAGE { image } else { &all[3] };
        self.try_given(
            command,
            "an image",
            &words,
            image,
            &[Step::Send(image)],
            book,
        );
        let longer = [&image[..], &[0]].concat();
        for (given, rule) in [(image, Rule::HexWroteInPieces), (&longer, Rule::Hex5More)] {
            for size in [1, 7, 100, 1312, 2623] {
                let mut steps = Vec::new();
                for piece in given.chunks(size) {
                    steps.extend([Step::Send(piece), Step::Pause]);
                }
                if size == 1 {
                    // One by one at the end alone, which is soon done.
                    let (first, last) = given.split_at(IMAGE - 40);
                    steps = vec![Step::Send(first)];
                    for piece in last.chunks(1) {
                        steps.extend([Step::Pause, Step::Send(piece)]);
                    }
                }
                let agrees =
                    self.try_given(linked, "an image in pieces", &words, given, &steps, book);
                book.saw_if(agrees && size > 1, rule);
                book.saw_if(agrees && size == 1, Rule::HexWroteByByte);
            }
        }
        // The image is answered at its end, and one byte more at once.
        for late in [0, 1, 16] {
            let (first, last) = image.split_at(IMAGE - late);
            let steps = [
                Step::Send(first),
                Step::Silent,
                Step::Send(last),
                Step::Silent,
            ];
            let agrees = self.try_given(
                linked,
                "an image whose end is late",
                &words,
                image,
                &steps,
                book,
            );
            book.saw_if(agrees, Rule::HexWroteLate);
        }
        for late in [0, 1, 2] {
            let (first, last) = longer.split_at(longer.len() - late);
            let steps = [Step::Send(first), Step::Pause, Step::Send(last), Step::Ends];
            let agrees = self.try_given(
                linked,
                "a byte more, left open",
                &words,
                &longer,
                &steps,
                book,
            );
            book.saw_if(agrees, Rule::Hex5Open);
        }
        for byte in [0, 0xFF] {
            let bytes = vec![byte; 4096];
            let steps = [Step::Endless(&bytes), Step::Ends];
            let agrees = self.try_given(
                linked,
                "an image without end",
                &words,
                &longer,
                &steps,
                book,
            );
            book.saw_if(agrees, Rule::Hex5Endless);
        }
    }

    /// What was written is read, and what was read is written: the program is held against itself.
    fn run_back(&mut self, command: &str, rng: &mut Rng, book: &mut Book) {
        let [reads, writes] = [[word("read")], [word("write")]];
        let turn = |tester: &mut Tester, words: &[Vec<u8>], given: &[u8], want: &[u8]| {
            let want = Said {
                printed: want.to_vec(),
                errors: Vec::new(),
            };
            tester.try_steps(
                command,
                "there and back",
                words,
                given,
                &[Step::Send(given)],
                &want,
            )
        };
        for image in images(rng) {
            let text = own_text(&image);
            let (written, first) = turn(self, &writes, &image, &text);
            let (back, second) = turn(self, &reads, &written.printed, &image);
            let (_, third) = turn(self, &writes, &back.printed, &written.printed);
            book.saw_if(first && second, Rule::HexBackImage);
            book.saw_if(second && third, Rule::HexBackText);
        }
        for _ in 0..12 {
            let count = rng.below(30);
            let records = some(rng, count);
            let text = Style::any(rng).file(rng, &records);
            let image = read(&text, &mut Book::new(None)).unwrap_or_default();
            let (found, first) = turn(self, &reads, &text, &image);
            let own = own_text(&found.printed);
            let (written, second) = turn(self, &writes, &found.printed, &own);
            let (_, third) = turn(self, &reads, &written.printed, &found.printed);
            book.saw_if(first && second && third, Rule::HexBackOwn);
        }
    }

    /// Words that are not the program's, whatever its input is.
    fn run_hex_usage(&mut self, command: &str, rng: &mut Rng, book: &mut Book) {
        for (number, words) in other_words().into_iter().enumerate() {
            let want = hexfile(&words, &[], book);
            let file = OWN.last(rng);
            let name = "other words";
            let agrees = match number % 3 {
                0 => {
                    self.try_steps(command, name, &words, &[], &[Step::Ends], &want)
                        .1
                }
                1 => {
                    self.try_steps(command, name, &words, &[], &[Step::Send(&file)], &want)
                        .1
                }
                _ => {
                    let folder = File::open(&self.folder).expect("the temporary folder");
                    self.try_input(command, name, &words, &[], folder.into(), &[], &want)
                        .1
                }
            };
            book.saw_if(agrees && number % 3 == 0, Rule::HexUsageOpen);
            book.saw_if(agrees && number % 3 == 2, Rule::HexUsageUnread);
        }
    }

    /// Files that come in pieces, or whose end is late.
    fn run_hex_ways(&mut self, command: &str, rng: &mut Rng, book: &mut Book) {
        let crlf = b":0200100012AB31\r\n:00000001FF\r\n".to_vec();
        for place in 0..=crlf.len() {
            let given = Given::new("a file in two pieces", crlf.clone());
            let agrees = self.try_file(command, &given, Way::Cut(place), rng, book).1;
            book.saw_if(agrees, Rule::HexCutAnywhere);
            let between = crlf[..place].ends_with(b"\r");
            book.saw_if(agrees && between, Rule::HexCutCr);
        }
        for number in 0..36 {
            let records = some(rng, 1 + number % 6);
            let style = Style::any(rng);
            let mut text = style.file(rng, &records);
            if number % 3 == 2 {
                let place = rng.below(text.len());
                text[place] ^= 1 << rng.below(7);
            }
            let (way, rule) = match number % 4 {
                0 if text.len() < 600 => (Way::Bytes, Rule::HexByByte),
                1 if number < 12 => (Way::EndLate, Rule::HexEndLate),
                _ => (Way::Pieces, Rule::HexInPieces),
            };
            // A late end is asked of files that are read.
            if way == Way::EndLate && read(&text, &mut Book::new(None)).is_err() {
                text = style.file(rng, &records);
            }
            let given = Given::new("a file in pieces", text);
            let agrees = self.try_file(command, &given, way, rng, book).1;
            book.saw_if(agrees, rule);
        }
        // Short files byte by byte, read and refused in every way.
        for (text, _) in TABLE {
            let given = Given::new("a file of the papers", word(text));
            let agrees = self.try_file(command, &given, Way::Bytes, rng, book).1;
            book.saw_if(agrees, Rule::HexByByte);
        }
        let own = own_text(&filled(rng, IMAGE));
        for way in [Way::Pieces, Way::EndLate] {
            let given = Given::new("our own file", own.clone());
            self.try_file(command, &given, way, rng, book);
        }
        // Devices by name: one that is empty, and one that has zeros without end.
        for verb in ["read", "write"] {
            for (device, bytes) in [("/dev/null", vec![]), ("/dev/zero", vec![0; 4096])] {
                let words = [word(verb), word(device)];
                self.try_given(command, "a device", &words, &bytes, &[Step::Ends], book);
            }
        }
        // Input without end.
        let words = [word("read")];
        for text in [
            "0",
            ":",
            " ",
            "\0",
            "\n",
            ":00000001FF\n",
            ":00\n",
            ":0000000000\n:00000002FE\n",
        ] {
            let bytes = text.repeat(4096 / text.len()).into_bytes();
            let steps = [Step::Endless(&bytes), Step::Ends];
            let agrees =
                self.try_given(command, "a file without end", &words, &bytes, &steps, book);
            book.saw_if(agrees, Rule::HexEndless);
        }
    }

    /// What the program must not answer before it has come, and what it must while its input is open.
    fn run_waits(&mut self, command: &str, rng: &mut Rng, book: &mut Book) {
        let words = [word("read")];
        let most = filled(rng, 255);
        let longest = OWN.line(rng, &record(0x0020, DATA, &most));
        let longest = [&longest[..LINE - 2], b"\r\n"].concat();
        let end = b":00000001FF\n";
        let spaces = [b' '; LINE];
        // What comes, after which nothing may be printed; the rest; whether that is answered with the input open.
        let held: [(&[u8], &[u8], bool); 16] = [
            (b"", end, false),
            (b":", b"00000001FF\n", false),
            (b":00000001FF", b"\n", false),
            (b":00000001FF\r", b"\n", false),
            (b":00000001FF\n", b"", false),
            (b":00000001FF\r\n", b"", false),
            (b":00000001FF\n", b"\n", true),
            (b":00000001FF\n", b":", true),
            (b":00000101FE", b"\n", true),
            (b":00000001FE", b"\n", true),
            (b":00000002FE", b"\n", true),
            (b":010A400000B5", b"\n", true),
            (b"this is no record", b"\n", true),
            (&spaces[..LINE - 1], b" ", true),
            (&spaces[..LINE - 1], b"\n", true),
            (&longest[..LINE - 1], b"\n:00000001FF\n", false),
        ];
        for (first, rest, open) in held {
            let text = [first, rest].concat();
            let last = if open { Step::Ends } else { Step::Silent };
            let steps = [Step::Send(first), Step::Silent, Step::Send(rest), last];
            let agrees = self.try_given(
                command,
                "a line that is awaited",
                &words,
                &text,
                &steps,
                book,
            );
            book.saw_if(agrees && !first.ends_with(b"\n"), Rule::HexWaits);
            book.saw_if(agrees && !open, Rule::HexHeldBack);
        }
        // A line in form that lacks its LF at the longest, and one character more.
        let over = [&longest[..LINE - 1], b"\r"].concat();
        let steps = [
            Step::Send(&over[..LINE - 1]),
            Step::Silent,
            Step::Send(b"\r"),
            Step::Ends,
        ];
        let agrees = self.try_given(
            command,
            "a line too long, left open",
            &words,
            &over,
            &steps,
            book,
        );
        book.saw_if(agrees, Rule::HexOpenLong);
        // Nothing is written of an image before the file has ended, however much of it is there.
        let own = own_text(&filled(rng, IMAGE));
        let many = [&own[..own.len() - end.len()].repeat(6), &end[..]].concat();
        for text in [&own, &many] {
            let steps = [Step::Send(text), Step::Silent];
            let agrees = self.try_given(command, "an image held back", &words, text, &steps, book);
            book.saw_if(agrees, Rule::HexHeldBack);
        }
    }

    /// Reads a file and holds what the program says against the model; what it says, and whether they agree.
    fn try_file(
        &mut self,
        command: &str,
        given: &Given,
        way: Way,
        rng: &mut Rng,
        book: &mut Book,
    ) -> (Said, bool) {
        if self.is_over() {
            self.failed += 1;
            return (Said::default(), false);
        }
        let text = &given.text;
        let answer = read(text, book);
        let decided = decided_at(text);
        // A file that is read, or refused at its end alone, is given to its end.
        let way = match (way, decided) {
            (Way::Open, None | Some(FAR..)) => Way::Whole,
            (Way::Bytes, _) if text.len() > 2000 => Way::Pieces,
            _ => way,
        };
        let mut words = vec![word("read")];
        let want = hexfile(&words, text, &mut Book::new(None));
        let mut steps = Vec::new();
        let mut rest = &text[..];
        match way {
            Way::Whole => steps.push(self.whole(text)),
            Way::Name => words.push(self.file(text)),
            Way::Bytes | Way::Pieces => {
                while !rest.is_empty() {
                    let most = rng.pick(&[2, 14, 60, 600, 5000]);
                    let size = if way == Way::Bytes {
                        1
                    } else {
                        rng.between(1, most)
                    };
                    let (piece, later) = rest.split_at(size.min(rest.len()));
                    steps.extend([Step::Send(piece), Step::Pause]);
                    rest = later;
                }
            }
            Way::Cut(place) => {
                let (first, last) = text.split_at(place);
                let pauses = [Step::Pause; 4];
                steps.push(Step::Send(first));
                steps.extend(pauses);
                steps.push(Step::Send(last));
            }
            Way::EndLate => steps.extend([Step::Send(text), Step::Silent]),
            Way::Open => steps.extend([Step::Send(&text[..decided.unwrap_or(0)]), Step::Ends]),
        }
        let name = format!("{}, given {way:?}", given.name);
        let (said, agrees) = self.try_steps(command, &name, &words, text, &steps, &want);
        if agrees {
            note_file(given, way, &answer, decided, book);
        } else if !self.is_over() || self.options.stop == self.failed {
            self.shrink_lines(command, text);
        }
        (said, agrees)
    }

    /// The step that sends all of this.
    fn whole<'a>(&self, bytes: &'a [u8]) -> Step<'a> {
        if bytes.len() < FAR {
            Step::Send(bytes)
        } else {
            Step::Pour(bytes)
        }
    }

    /// Gives what the words ask about, and holds what the program says against the model; whether they agree.
    fn try_given(
        &mut self,
        command: &str,
        name: &str,
        words: &[Vec<u8>],
        given: &[u8],
        steps: &[Step],
        book: &mut Book,
    ) -> bool {
        let want = hexfile(words, given, book);
        self.try_steps(command, name, words, given, steps, &want).1
    }

    /// Starts the program with its input open and goes through the steps; what it says, and whether that is wanted.
    fn try_steps(
        &mut self,
        command: &str,
        name: &str,
        words: &[Vec<u8>],
        given: &[u8],
        steps: &[Step],
        want: &Said,
    ) -> (Said, bool) {
        self.try_input(command, name, words, given, Stdio::piped(), steps, want)
    }

    /// The same with another input.
    #[allow(clippy::too_many_arguments)]
    fn try_input(
        &mut self,
        command: &str,
        name: &str,
        words: &[Vec<u8>],
        given: &[u8],
        input: Stdio,
        steps: &[Step],
        want: &Said,
    ) -> (Said, bool) {
        if !self.is_over() {
            self.files += 1;
        }
        let start = Start {
            program: "hexfile",
            command,
            name,
            words,
            given: &|| format!("input: {}", shown(given)),
        };
        self.try_start(&start, input, steps, want, &Judge { fits, show })
    }

    /// Shows a file of fewer lines that is still answered otherwise.
    fn shrink_lines(&self, command: &str, text: &[u8]) {
        let lines: Vec<&[u8]> = text
            .split_inclusive(|character| *character == b'\n')
            .collect();
        if !(2..=SHRUNK).contains(&lines.len()) || text.len() > FAR / 2 {
            return;
        }
        let words = [word("read")];
        let found = shortest(&lines, |lines: &[&[u8]]| {
            let text = lines.concat();
            let want = hexfile(&words, &text, &mut Book::new(None));
            let (got, fault) =
                self.told_in_steps(command, &words, Stdio::piped(), &[Step::Send(&text)]);
            (!fits(&want, &got) || fault.is_some()).then(|| (lines.to_vec(), (want, got)))
        });
        let Some((lines, (want, got))) = found else {
            println!("not seen again in one go: it goes by the way it is given");
            return;
        };
        println!(
            "fewest lines found, {}: {}",
            lines.len(),
            shown(&lines.concat())
        );
        show(&want, &got);
    }
}

/// What is met where a file is answered as the model answers it.
fn note_file(
    given: &Given,
    way: Way,
    answer: &Result<Vec<u8>, Refusal>,
    decided: Option<usize>,
    book: &mut Book,
) {
    if let Some(rule) = given.rule {
        book.saw(rule);
    }
    book.saw(match way {
        Way::Name => Rule::HexByName,
        _ => Rule::HexByInput,
    });
    let Err(refusal) = answer else {
        return;
    };
    book.saw_if(refusal.line > 0x1_0000, Rule::HexFarLine);
    if way == Way::Open {
        let long = decided.is_some_and(|size| given.text[size - 1] != b'\n');
        book.saw(match refusal.number {
            16 if long => Rule::HexOpenLong,
            16 => Rule::HexOpen16,
            17 => Rule::HexOpen17,
            18 => Rule::HexOpen18,
            19 => Rule::HexOpen19,
            _ => Rule::HexOpen20,
        });
    }
    if let Some(spot) = given.spot {
        let rules = match refusal.number {
            16 => [
                Rule::Hex16First,
                Rule::Hex16Middle,
                Rule::Hex16Last,
                Rule::Hex16Ends,
            ],
            17 => [
                Rule::Hex17First,
                Rule::Hex17Middle,
                Rule::Hex17Last,
                Rule::Hex17Ends,
            ],
            18 => [
                Rule::Hex18First,
                Rule::Hex18Middle,
                Rule::Hex18Last,
                Rule::Hex18Ends,
            ],
            19 => [
                Rule::Hex19First,
                Rule::Hex19Middle,
                Rule::Hex19Last,
                Rule::Hex19Ends,
            ],
            _ => return,
        };
        book.saw(match spot {
            Spot::First => rules[0],
            Spot::Middle => rules[1],
            Spot::Last => rules[2],
            Spot::Ends => rules[3],
        });
    }
}

/// Whether a program says what the model says; the words of standard error are free, but for how they begin.
fn fits(want: &Said, got: &Said) -> bool {
    let begins: &[u8] = match &want.errors[..] {
        b"" => return got.printed == want.printed && got.errors.is_empty(),
        line if line.starts_with(b"usage: ") => b"usage: hexfile",
        line if line.starts_with(b"hexfile: line ") => {
            let mut colons = line.iter().enumerate().filter(|(_, sign)| **sign == b':');
            let second = colons.nth(1).map_or(0, |(place, _)| place);
            &line[..second + 2]
        }
        _ => b"hexfile: ",
    };
    let Some(rest) = got.errors.strip_prefix(begins) else {
        return false;
    };
    // A refusal by 5 names no line.
    let line = rest.strip_prefix(b"line ").and_then(<[u8]>::first);
    let named = begins == b"hexfile: " && line.is_some_and(u8::is_ascii_digit);
    let lines = rest.iter().filter(|character| **character == b'\n').count();
    let free = begins.starts_with(b"usage") || rest.len() > 1;
    got.printed == want.printed && rest.ends_with(b"\n") && lines == 1 && free && !named
}

/// What model and program say; of long outputs a part, from the first difference on where both are long.
fn show(want: &Said, got: &Said) {
    let [wanted, printed] = [&want.printed, &got.printed];
    let same = first_difference(wanted, printed);
    let long = wanted.len().min(printed.len()) > AROUND && wanted != printed;
    let from = if long { same } else { 0 };
    if long {
        println!("both print the same {same} bytes, then:");
    }
    for (who, said) in [("model", want), ("program", got)] {
        let end = said.printed.len();
        let part = shown(&said.printed[from..end.min(from + AROUND)]);
        let errors = shown(&said.errors);
        println!("{who:<8} {part}, {end} bytes, standard error {errors}");
    }
}
