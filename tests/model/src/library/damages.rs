//! Tables that are no tables: one fault each, in a line that is else in range.

use super::lines::{line_of, with_step};
use crate::gen::rng::Rng;
use crate::model::chip::{DS2413, DS28EC20, LAST_KIND};
use crate::model::lent::Lent;
use crate::model::record::{
    shape, A, B, C, ES, KIND, LATCHES, LEVELS, RC, RECORD, STEP, STEPS, UNUSED, W,
};

/// A fault and how it is made.
pub struct Damage {
    pub name: String,
    make: Box<dyn Fn(&mut Rng, &mut Lent)>,
}

/// A damage that changes the bytes of one record.
fn in_record(name: &str, make: impl Fn(&mut Rng, &mut [u8]) + 'static) -> Damage {
    let change = move |rng: &mut Rng, lent: &mut Lent| {
        let at = rng.below(lent.table.len() / RECORD) * RECORD;
        make(rng, &mut lent.table[at..at + RECORD]);
    };
    Damage {
        name: format!("damage: {name}"),
        make: Box::new(change),
    }
}

/// A damage that changes the table's length.
fn of_length(name: &str, make: impl Fn(&mut Rng, &mut Lent) + 'static) -> Damage {
    Damage {
        name: format!("damage: {name}"),
        make: Box::new(make),
    }
}

/// A byte from a first one up.
fn from(rng: &mut Rng, first: u8) -> u8 {
    let last = rng.pick(&[first, 0xFF]);
    rng.between(first.into(), last.into()) as u8
}

/// Faults of the whole table.
fn lengths() -> Vec<Damage> {
    vec![
        of_length("a byte more than whole records", |_, lent| {
            lent.table.push(0)
        }),
        of_length("a byte fewer than whole records", |_, lent| {
            lent.table.pop();
        }),
        of_length("half a record", |_, lent| {
            lent.table.extend([0; RECORD / 2])
        }),
        of_length("17 records", |rng, lent| {
            let kinds: Vec<u32> = (0..17).map(|_| rng.pick(&[DS28EC20, DS2413])).collect();
            *lent = line_of(rng, &kinds);
        }),
        of_length("32 records", |rng, lent| {
            *lent = line_of(rng, &[DS2413; 32])
        }),
    ]
}

/// Faults of a field that every record has.
fn fields() -> Vec<Damage> {
    vec![
        in_record("kind 0", |_, record| record[KIND] = 0),
        in_record("kind past the last", |rng, record| {
            record[KIND] = from(rng, LAST_KIND as u8 + 1)
        }),
        in_record("RC over 1", |rng, record| record[RC] = from(rng, 2)),
        in_record("E/S bit 6", |_, record| record[ES] |= 0x40),
        in_record("latches over 3", |rng, record| {
            record[LATCHES] = from(rng, 4)
        }),
        in_record("levels over 3", |rng, record| record[LEVELS] = from(rng, 4)),
        in_record("step 6 to 15", |rng, record| {
            record[STEP] = rng.between(6, 15) as u8
        }),
        in_record("step 27 to 31", |rng, record| {
            record[STEP] = rng.between(27, 31) as u8
        }),
        in_record("step over 36", |rng, record| record[STEP] = from(rng, 37)),
    ]
}

/// Faults of the bytes after the fields: each of them other than 0.
fn unused() -> Vec<Damage> {
    (UNUSED..RECORD)
        .map(|at| {
            in_record(&format!("byte {at}"), move |rng, record| {
                record[at] = from(rng, 1)
            })
        })
        .collect()
}

/// Faults of what one step needs: the other kind, and each field one over its most or more.
fn of_step(step: u8) -> Vec<Damage> {
    let shape = shape(step).expect("a step");
    let kind = shape.part.unwrap_or(DS28EC20);
    let mut all = Vec::new();
    if shape.part.is_some() {
        let make = move |rng: &mut Rng, lent: &mut Lent| {
            with_step(rng, lent, DS28EC20 + DS2413 - kind, step);
        };
        all.push(of_length(
            &format!("step {step:>2} of the other kind"),
            make,
        ));
    }
    for (name, at, most) in [("a", A, shape.a), ("b", B, shape.b), ("c", C, shape.c)] {
        if most < 0xFF {
            let make = move |rng: &mut Rng, lent: &mut Lent| {
                let record = with_step(rng, lent, kind, step);
                lent.table[record + at] = from(rng, most + 1);
            };
            all.push(of_length(
                &format!("step {step:>2}, {name} over {most}"),
                make,
            ));
        }
    }
    if shape.w < 0xFFFF {
        let make = move |rng: &mut Rng, lent: &mut Lent| {
            let at = with_step(rng, lent, kind, step) + W;
            let high = rng.between(usize::from(shape.w) + 1, 0xFFFF) as u16;
            let w = rng.pick(&[shape.w + 1, high, high & 0xFF00 | 0x1000]);
            lent.table[at..=at + 1].copy_from_slice(&w.to_le_bytes());
        };
        all.push(of_length(
            &format!("step {step:>2}, w over {}", shape.w),
            make,
        ));
    }
    all
}

/// Every damage.
pub fn damages() -> Vec<Damage> {
    let steps = STEPS.into_iter().flat_map(of_step);
    let whole = lengths().into_iter().chain(fields()).chain(unused());
    whole.chain(steps).collect()
}

impl Damage {
    /// A line of at least one chip with this fault alone.
    pub fn line(&self, rng: &mut Rng) -> Lent {
        let count = rng.between(1, 5);
        let kinds: Vec<u32> = (0..count).map(|_| rng.pick(&[DS28EC20, DS2413])).collect();
        let mut lent = line_of(rng, &kinds);
        (self.make)(rng, &mut lent);
        lent
    }
}
