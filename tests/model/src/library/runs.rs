//! Runs of slots: of each length, cut anywhere, and of wrong sizes.

use super::lines::{any_line, leading_bit, line_of, with_step};
use super::run_classes::{LENGTHS, SIZES};
use super::{Script, Tester};
use crate::gen::rng::Rng;
use crate::model::book::Book;
use crate::model::chip::{DS2413, DS28EC20};
use crate::model::lent::{Lent, Run, MOST_SLOTS};
use crate::model::record::{pack, C, RECORD, STEP};

/// Most parts into which a run is cut.
const PARTS: usize = 5;

/// How many slots a run has.
pub fn length(rng: &mut Rng) -> usize {
    let [few, many] = [rng.below(40), rng.below(400)];
    rng.pick(&[
        0, 1, 2, 7, 8, 8, 9, 15, 16, 17, 64, 72, few, few, many, many,
    ])
}

/// A run of these bits, with any bits past them and any bytes to be written over.
pub fn run_of(rng: &mut Rng, bits: &[u8]) -> Run {
    let pack = |eight: &[u8]| {
        let past = rng.bits() << eight.len();
        let places = eight.iter().enumerate();
        places.fold(past as u8, |byte, (place, bit)| byte | bit << place)
    };
    let packed: Vec<u8> = bits.chunks(8).map(pack).collect();
    Run {
        slots: bits.len() as u64,
        answers: packed.iter().map(|_| rng.byte()).collect(),
        bits: packed,
    }
}

/// Host bits that lead one chip of a line on for so many slots, some of them disturbed.
fn leading_bits(rng: &mut Rng, lent: &Lent, chip: usize, slots: usize) -> Vec<u8> {
    let mut line = lent.line().expect("a line in range");
    let disturbed = rng.pick(&[0, 0, 1, 4, 30]);
    let mut bits = Vec::new();
    for _ in 0..slots {
        let table = line.table.get(chip).map(pack);
        let shown = Lent {
            table: table.into_iter().flatten().collect(),
            ..Lent::default()
        };
        let flipped = u32::from(rng.chance(disturbed));
        let bit = leading_bit(rng, &shown) ^ flipped;
        let slot = line.event(bit.into(), 0, 0, &mut Book::new(None));
        slot.expect("a slot is not refused on a line in range");
        bits.push(bit as u8);
    }
    bits
}

/// Any line, often one on which most chips wait; and the chip to lead on.
fn line_for_run(rng: &mut Rng, number: usize) -> (Lent, usize) {
    let mut lent = match number % 25 {
        0 => line_of(rng, &[DS28EC20; 16]),
        _ => any_line(rng),
    };
    let chips = lent.table.len() / RECORD;
    let chip = rng.below(chips.max(1));
    let waiting = rng.pick(&[0, 0, 50, 90]);
    for (place, record) in lent.table.chunks_exact_mut(RECORD).enumerate() {
        if place != chip && rng.chance(waiting) {
            record[STEP..=C].fill(0);
        }
    }
    (lent, chip)
}

impl Tester {
    /// Adds a run and counts what it meets.
    pub(super) fn ran(&mut self, script: &mut Script, run: Run) -> i32 {
        let before = script.lent.clone();
        let answer = script.run(run.clone(), &mut self.book);
        if answer >= 0 {
            let told = script.answers.last().expect("the run");
            let answers = &told[8..8 + run.answers.len()];
            self.classes.note_run(&run, answers);
            self.classes.note_chips(&before, &run, &script.lent);
        }
        answer
    }

    /// Adds a run of any few bits on a line that is refused, now and then of a wrong size itself.
    pub(super) fn refused_run(&mut self, script: &mut Script, rng: &mut Rng) -> i32 {
        let bits: Vec<u8> = (0..rng.below(20)).map(|_| rng.below(2) as u8).collect();
        let mut run = run_of(rng, &bits);
        let wrong = rng.chance(25);
        if wrong {
            run.bits.push(0xFF);
        }
        let answer = script.run(run, &mut self.book);
        self.classes
            .saw_if(answer == -8 && wrong, "run: 8 before 5");
        answer
    }

    /// A run of one of the lengths; the longest on switches, which need not come to an end.
    pub(super) fn run_of_length(&mut self, rng: &mut Rng, number: usize) -> Script {
        let mut script = Script::default();
        let (slots, _) = LENGTHS[number % LENGTHS.len()];
        let (mut lent, mut chip) = line_for_run(rng, number);
        if slots as u64 == MOST_SLOTS {
            chip = with_step(rng, &mut lent, DS2413, 34) / RECORD;
        }
        let bits = leading_bits(rng, &lent, chip, slots);
        let run = run_of(rng, &bits);
        script.lend(lent, &mut self.book);
        self.ran(&mut script, run);
        script
    }

    /// A run of a wrong size on a line in range, then one of the right size.
    pub(super) fn run_of_wrong_size(&mut self, rng: &mut Rng, number: usize) -> Script {
        let mut script = Script::default();
        let (lent, _) = line_for_run(rng, number);
        let bits: Vec<u8> = (0..rng.between(1, 40))
            .map(|_| rng.below(2) as u8)
            .collect();
        let right = run_of(rng, &bits);
        let mut run = right.clone();
        let choice = number % SIZES.len();
        match choice {
            0 => drop(run.bits.pop()),
            1 => run.bits.push(rng.byte()),
            2 => drop(run.answers.pop()),
            3 => run.answers.push(rng.byte()),
            4 => drop((run.bits.pop(), run.answers.pop())),
            5 => {
                run.bits.push(rng.byte());
                run.answers.push(rng.byte());
            }
            6 => run = run_of(rng, &vec![1; MOST_SLOTS as usize + 1]),
            7 => run.slots += (MOST_SLOTS + 1) << rng.below(16),
            8 => run.slots += 1 << rng.between(32, 63),
            _ => {
                run = run_of(rng, &[]);
                run.slots = u64::MAX - rng.below(7) as u64;
            }
        }
        script.lend(lent, &mut self.book);
        let refused = self.ran(&mut script, run) == -5;
        self.classes.saw_if(refused, SIZES[choice]);
        self.ran(&mut script, right);
        script
    }

    /// The slots of one run on one line, whole, and then cut anywhere: parts are runs, short ones often events.
    pub(super) fn cut_run(&mut self, rng: &mut Rng, number: usize) -> Script {
        let mut script = Script::default();
        let (lent, chip) = line_for_run(rng, number);
        let slots = length(rng);
        let bits = leading_bits(rng, &lent, chip, slots);
        script.lend(lent.clone(), &mut self.book);
        let whole = run_of(rng, &bits);
        self.ran(&mut script, whole);
        let mut cuts = vec![0, slots];
        cuts.extend((0..rng.between(1, PARTS - 1)).map(|_| rng.below(slots + 1)));
        cuts.sort_unstable();
        script.lend(lent, &mut self.book);
        for cut in cuts.windows(2) {
            let part = &bits[cut[0]..cut[1]];
            if part.len() < 12 && rng.chance(50) {
                for bit in part {
                    script.event((u32::from(*bit), 0, 0), &mut self.book);
                }
            } else {
                let run = run_of(rng, part);
                self.ran(&mut script, run);
            }
        }
        script
    }
}
