//! The papers' bench cases, their worked list output, pages, files and rounds, and cases that only a lent table can
//! show, all held against the model itself.

mod hexfiles;
mod rounds;
mod setpoints;

use std::collections::VecDeque;

use crate::library::trouble::{each_part_shows, shared_slips_show};
use crate::model::book::Book;
use crate::model::card::read_card;
use crate::model::chip::{Chip, Step, AA, DS2413, DS28EC20, LAST_KIND};
use crate::model::crc::{crc16, crc8, crc8_from};
use crate::model::figure4::Figure4;
use crate::model::lent::{Lent, Run};
use crate::model::line::Line;
use crate::model::memory::{IMAGE, PAD};
use crate::model::programs::list;
use crate::model::record::pack;
use crate::model::recording::{playback, Playback};
use crate::model::search::{search_line, Found};

/// A case: whether the model keeps to it.
pub type Case = fn(&mut Book) -> bool;

/// Every case with its name.
pub const CASES: &[(&str, Case)] = &[
    ("worked list output", worked_output),
    ("a dead line is not a good code", dead_line),
    ("bench case 1", case_1),
    ("bench case 2", case_2),
    ("bench case 3", case_3),
    ("bench case 4", case_4),
    ("bench case 5", case_5),
    ("bench case 6", case_6),
    ("bench case 7", case_7),
    ("bench case 8", case_8),
    ("bench case 9", case_9),
    ("a short address sets PF", short_address),
    ("a short address acts at the reset", short_at_reset),
    ("a short address after a copy", short_after_copy),
    ("a power on at a short address", short_power_on),
    ("other cuts set no PF", other_cuts),
    ("the list after trouble", after_trouble),
    ("lists held against one another", lists_compared),
    ("figure 4: the trace of 01h", figure_trace),
    ("figure 4: every byte from every register", figure_bytes),
    ("the DS2413 sheet's write example", sheet_example),
    ("a receiving chip takes the slot's value", takes_value),
    ("the last address is read", last_address),
    ("E below T mod 32 copies nothing", copy_below),
    ("refusals of an event", event_refusals),
    ("refusals of a search", search_refusals),
    ("a run of slots", run_of_slots),
    ("a card with few places", few_places),
    ("fields of the other kind stay", other_fields),
    ("the worked recording", worked_recording),
    ("a recording's refusals in order", recording_refusals),
    ("a recording without an answer", recording_without_answer),
    ("a run cut at every bit", recording_cut),
    ("a recording in two pieces", recording_in_pieces),
    ("a recording refused by a head", recording_heads),
    ("the worked pages", setpoints::worked_pages),
    ("every byte and pair of a setpoint", setpoints::every_body),
    (
        "a setpoint's refusals in order",
        setpoints::refusals_in_order,
    ),
    ("a setpoint over any page", setpoints::written_pages),
    ("a setpoint of any length", setpoints::long_values),
    ("words without a setpoint", setpoints::other_words),
    ("the table of Intel HEX files", hexfiles::table),
    ("the text of an image", hexfiles::written_text),
    ("records of any form", hexfiles::any_form),
    ("a file's refusals in order", hexfiles::refusals_in_order),
    ("addresses of data", hexfiles::addresses),
    ("when a line is judged", hexfiles::judged_when),
    ("what hexfile says", hexfiles::program_words),
    ("the examples of a round", rounds::examples),
    ("a round of 16 memories", rounds::sixteen),
    ("who bears a code", rounds::borne_codes),
    ("the events of a round", rounds::counted),
    ("a round's refusals in order", rounds::refusals_in_order),
    ("what round is asked", rounds::program_words),
    ("a round of a refused card", rounds::refused_cards),
];

/// A host at a line of the model.
struct Desk<'a> {
    line: Line,
    book: &'a mut Book,
}

impl Desk<'_> {
    /// A line of chips of these kinds, codes from 1 on, after power on.
    fn with<'a>(kinds: &[u32], book: &'a mut Book) -> Desk<'a> {
        let chips = kinds.iter().zip(1..);
        let table = chips.map(|(kind, code)| Chip::at_set_up(*kind, code));
        let line = Line::set_up(table.collect(), book);
        Desk { line, book }
    }

    fn event(&mut self, number: u64) -> u8 {
        let answer = self.line.event(number, 0, 0, self.book);
        answer.expect("a line in range")
    }

    /// Writes the lowest bits of a number.
    fn lowest(&mut self, number: u64, count: usize) {
        for place in 0..count {
            self.event(number >> place & 1);
        }
    }

    fn bits(&mut self, byte: u8) -> u8 {
        let bit = |place: u8| self.event(u64::from(byte >> place & 1)) << place;
        (0..8).map(bit).sum()
    }

    fn read(&mut self) -> u8 {
        self.bits(0xFF)
    }

    /// Reset, Skip ROM and bytes.
    fn skip(&mut self, bytes: &[u8]) {
        self.event(2);
        for byte in [0xCC].iter().chain(bytes) {
            self.bits(*byte);
        }
    }

    /// Reset, Match ROM with a code and bytes.
    fn matched(&mut self, code: u64, bytes: &[u8]) {
        self.event(2);
        self.bits(0x55);
        self.lowest(code, 64);
        for byte in bytes {
            self.bits(*byte);
        }
    }

    /// TA1, TA2 and E/S of the only memory chip, by Read Scratchpad.
    fn registers(&mut self) -> [u8; 3] {
        self.skip(&[0xAA]);
        [self.read(), self.read(), self.read()]
    }

    /// E/S of the only memory chip, by Read Scratchpad.
    fn es(&mut self) -> u8 {
        self.registers()[2]
    }

    /// T and E/S in the record of the first chip.
    fn held(&self) -> (u16, u8) {
        (self.line.table[0].t, self.line.table[0].es)
    }
}

fn record(kind: u8, code: u64) -> Vec<u8> {
    let mut record = vec![10, 0, kind, 0];
    record.extend(code.to_le_bytes());
    record
}

fn worked_output(book: &mut Book) -> bool {
    let card: Vec<u8> = [3, 2, 0, 1].map(|code| record(1, code)).concat();
    list(&card, book)
        == "0000000000000000 zero\n0000000000000002 no\n0000000000000001 no\n\
            0000000000000003 no\n4 codes 800 slots\n"
        && list(&record(1, 0x5E00_0000_0000_0000), book)
            == "5E00000000000000 no\n1 codes 200 slots\n"
        && list(&[], book) == "0 codes 0 slots\n"
}

/// M-104: the code of zeros alone is `zero`, and every other code `ok` or `no` by its CRC. The good one
/// is the example of the maker's application note 27.
fn dead_line(book: &mut Book) -> bool {
    let mut is_told = |code: u64, word: &str| {
        let told = list(&record(2, code), book);
        told == format!("{code:016X} {word}\n1 codes 200 slots\n")
    };
    let alone = is_told(0, "zero")
        && is_told(u64::MAX, "no")
        && is_told(0xA200_0000_01B8_1C02, "ok")
        && (0..64).all(|place| is_told(1 << place, "no"));
    let three: Vec<u8> = [0, 0, 0].map(|code| record(1, code)).concat();
    alone
        && crc8(&[0; 7]) == 0
        && list(&three, book) == "0000000000000000 zero\n1 codes 200 slots\n"
}

fn case_1(book: &mut Book) -> bool {
    let mut desk = Desk::with(&[DS28EC20], book);
    desk.line.table[0].t = 0x001F;
    desk.skip(&[0xAA]);
    let sent: Vec<u8> = (0..6).map(|_| desk.read()).collect();
    let crc = !crc16(&[0xAA, 0x1F, 0x00, 0x20, 0xFF]);
    crc8(&[0x01]) == 0x5E
        && crc16(&[0x01]) == 0xC0C1
        && (!crc16(&[0x01])).to_le_bytes() == [0x3E, 0x3F]
        && sent[..4] == [0x1F, 0x00, 0x20, 0xFF]
        && sent[4..] == crc.to_le_bytes()
}

fn figure_trace(book: &mut Book) -> bool {
    let mut figure = Figure4::reading(0);
    let after = |place: u8| {
        figure.step(0x01 >> place & 1 == 1, book);
        figure.byte()
    };
    let trace: Vec<u8> = (0..8).map(after).collect();
    trace == [0x8C, 0x46, 0x23, 0x9D, 0xC2, 0x61, 0xBC, 0x5E]
}

fn figure_bytes(book: &mut Book) -> bool {
    let agrees = |register: u8, byte: u8| {
        let mut figure = Figure4::reading(register);
        let read = figure.byte();
        figure.take(&[byte], book);
        read == register && figure.byte() == crc8_from(register, &[byte])
    };
    (0..=255).all(|register| (0..=255).all(|byte| agrees(register, byte)))
}

/// The four codes of bench case 2.
fn four(book: &mut Book) -> Line {
    let table = [0xAC, 0x55, 0xAF, 0x88].map(|code| Chip::at_set_up(DS28EC20, code));
    Line::set_up(table.to_vec(), book)
}

fn case_2(book: &mut Book) -> bool {
    let found = search_line(&mut four(book), 16, book);
    found
        == Found {
            refusal: None,
            list: vec![0x88, 0xAC, 0x55, 0xAF],
            resets: 4,
            slots: 800,
        }
}

fn case_3(book: &mut Book) -> bool {
    let mut empty = Line::set_up(Vec::new(), book);
    let none = |found: Found| (found.refusal, found.list.len(), found.resets, found.slots);
    let mut line = four(book);
    let two = search_line(&mut line, 2, book);
    none(search_line(&mut empty, 16, book)) == (None, 0, 1, 0)
        && none(search_line(&mut empty, 0, book)) == (None, 0, 1, 0)
        && none(search_line(&mut line, 0, book)) == (Some(4), 0, 1, 0)
        && two
            == Found {
                refusal: Some(4),
                list: vec![0x88, 0xAC],
                resets: 2,
                slots: 400,
            }
}

fn case_4(book: &mut Book) -> bool {
    let mut desk = Desk::with(&[DS28EC20], book);
    desk.skip(&[0x55, 0x00, 0x00, 0x20]);
    desk.read() == 0xFF && desk.es() == 0x20 && desk.line.images == [0xFF; IMAGE]
}

/// A line of one memory chip after case 5's write.
fn after_write(book: &mut Book) -> Desk<'_> {
    let mut desk = Desk::with(&[DS28EC20], book);
    desk.skip(&[0x0F, 0x06, 0x00, 0x12, 0x34]);
    desk
}

fn case_5(book: &mut Book) -> bool {
    let mut desk = after_write(book);
    let written = desk.es() == 0x07;
    desk.skip(&[0x55, 0x06, 0x00, 0x06]);
    let wrong = desk.read() == 0xFF && desk.es() == 0x07 && desk.line.images[6] == 0xFF;
    desk.skip(&[0x55, 0x06, 0x00, 0x07]);
    let right = desk.read() == 0xAA && desk.es() == 0x87;
    written && wrong && right && desk.line.images[5..9] == [0xFF, 0x12, 0x34, 0xFF]
}

fn case_6(book: &mut Book) -> bool {
    let mut desk = Desk::with(&[DS28EC20], book);
    desk.line.images[0x0A00] = 0x55;
    desk.skip(&[0x0F, 0x06, 0x00, 0x12, 0x34]);
    desk.skip(&[0x55, 0x06, 0x00, 0x07]);
    let held = desk.read() == 0xAA && desk.es() == 0x87 && desk.line.images[6..8] == [0xFF; 2];
    desk.line.images[0x0A1E] = 0xAA;
    desk.skip(&[0x0F, 0x06, 0x00, 0x12, 0x34]);
    desk.skip(&[0x55, 0x06, 0x00, 0x07]);
    held && desk.read() == 0xFF && desk.es() == 0x07
}

fn case_7(book: &mut Book) -> bool {
    let mut desk = Desk::with(&[DS28EC20], book);
    desk.line.images[0x0A00] = 0xAA;
    desk.line.images[6] = 0xF0;
    desk.skip(&[0x0F, 0x06, 0x00, 0x3C]);
    let falls = desk.line.pads[6] == 0x30;
    desk.skip(&[0x55, 0x06, 0x00, 0x06]);
    falls && desk.line.images[6] == 0x30
}

fn case_8(book: &mut Book) -> bool {
    let mut desk = Desk::with(&[DS2413, DS2413], book);
    desk.skip(&[0xF5]);
    let open = desk.read() == 0x0F;
    desk.event(2);
    for byte in [0x55, 1, 0, 0, 0, 0, 0, 0, 0, 0x5A, 0xFE, 0x01] {
        desk.bits(byte);
    }
    let written = desk.read() == 0xAA && desk.read() == 0x3C;
    desk.skip(&[0xF5]);
    let both = desk.read() == 0x0C;
    let mut desk = Desk::with(&[DS2413], desk.book);
    let low = desk.line.event(4, 0, 2, desk.book) == Ok(1);
    desk.skip(&[0xF5]);
    open && written && both && low && desk.read() == 0x1E
}

fn case_9(book: &mut Book) -> bool {
    let mut desk = Desk::with(&[DS28EC20], book);
    desk.skip(&[0x0F, 0x00, 0x00, 0x12]);
    desk.skip(&[0x0F, 0x20, 0x01]);
    let es = desk.es() == 0x00;
    let mut held = desk.line.clone();
    desk.skip(&[0x55, 0x20, 0x01, 0x00]);
    let open = desk.read() == 0xAA && desk.line.images[0x0120..0x0122] == [0x12, 0xFF];
    held.images[0x0A01] = 0x55;
    desk.line = held;
    desk.skip(&[0x55, 0x20, 0x01, 0x00]);
    es && open && desk.read() == 0xAA && desk.line.images[0x0120] == 0xFF
}

/// M-102: after case 5's write, 0Fh and 8 bits that are no byte of its address.
fn short_address(book: &mut Book) -> bool {
    let mut desk = after_write(book);
    desk.skip(&[0x0F, 0x20]);
    let set = desk.registers() == [0x06, 0x00, 0x27];
    desk.skip(&[0x55, 0x06, 0x00, 0x27]);
    let ones = desk.read() == 0xFF && desk.registers() == [0x06, 0x00, 0x27];
    set && ones && desk.line.pads[6..8] == [0x12, 0x34] && desk.line.images == [0xFF; IMAGE]
}

/// M-102: the record has PF straight after the reset and not before it, at any number of bits.
fn short_at_reset(book: &mut Book) -> bool {
    (0..16).all(|count| {
        let mut desk = after_write(book);
        desk.skip(&[0x0F]);
        desk.lowest(0xFFF9, count);
        let before = desk.held() == (0x0006, 0x07);
        desk.event(2);
        before && desk.held() == (0x0006, 0x27)
    })
}

/// M-102: E/S 87h becomes A7h, and stays so.
fn short_after_copy(book: &mut Book) -> bool {
    let mut desk = after_write(book);
    desk.skip(&[0x55, 0x06, 0x00, 0x07]);
    let copied = desk.es() == 0x87;
    let set = (0..2).all(|_| {
        desk.skip(&[0x0F, 0x20]);
        desk.registers() == [0x06, 0x00, 0xA7]
    });
    desk.skip(&[0x55, 0x06, 0x00, 0xA7]);
    copied && set && desk.read() == 0xFF && desk.es() == 0xA7
}

/// M-102: a power on is no reset.
fn short_power_on(book: &mut Book) -> bool {
    let mut desk = after_write(book);
    desk.skip(&[0x0F, 0x20]);
    desk.event(3);
    desk.held() == (0x0000, 0x20) && desk.registers() == [0x00, 0x00, 0x20]
}

/// M-102: a reset in the address of 55h or F0h, inside 0Fh, or after its 16th address bit.
fn other_cuts(book: &mut Book) -> bool {
    let mut desk = after_write(book);
    let mut stays = |bytes: &[u8], number: u64, count: usize| {
        desk.skip(bytes);
        desk.lowest(number, count);
        desk.event(2);
        desk.held() == (0x0006, 0x07)
    };
    let addresses =
        (0..16).all(|count| stays(&[0x55], 0xFFF9, count) && stays(&[0xF0], 0xFFF9, count));
    let command = (0..8).all(|count| stays(&[], 0x0F, count));
    desk.skip(&[0x0F, 0x20, 0x01]);
    desk.event(2);
    addresses && command && desk.held() == (0x0120, 0x00)
}

/// M-111: the four codes of bench case 2 in another order, ACh on chips of both kinds, with a pin of AFh held
/// low and after case 5's write to 88h.
fn troubled(book: &mut Book) -> Desk<'_> {
    let chips = [(2, 0xAF), (1, 0x88), (2, 0xAC), (1, 0x55), (1, 0xAC)];
    let table = chips.map(|(kind, code)| Chip::at_set_up(kind, code));
    let line = Line::set_up(table.to_vec(), book);
    let mut desk = Desk { line, book };
    desk.line.event(4, 0, 2, desk.book).expect("a DS2413");
    desk.matched(0x88, &[0x0F, 0x06, 0x00, 0x12, 0x34]);
    desk
}

/// M-111: the list and the counts of a line in trouble are those of a fresh line with its codes: inside a copy,
/// after a copy, and after a search that ends with the 5th bit of 88h.
fn after_trouble(book: &mut Book) -> bool {
    let mut desk = troubled(book);
    desk.matched(0x88, &[0x55, 0x06, 0x00]);
    desk.lowest(0x07, 3);
    let begun = desk.line.table[1].rc && desk.line.table[1].bits.len() == 19;
    let mut lines = vec![desk.line];
    let mut desk = troubled(desk.book);
    desk.matched(0x88, &[0x55, 0x06, 0x00, 0x07]);
    let copied = desk.line.table[1].step == Step::CopyDone;
    lines.push(desk.line.clone());
    desk.event(2);
    desk.bits(0xF0);
    desk.lowest(0b011_111_011_011_011, 15);
    let broken = desk.line.table[1].step == Step::SearchBit(5);
    lines.push(desk.line);
    let fresh = four(desk.book);
    let mut found = |line: &Line, places| search_line(&mut line.clone(), places, desk.book);
    let mut same = |places: usize| {
        let want = found(&fresh, places);
        lines.iter().all(|line| found(line, places) == want)
    };
    begun && copied && broken && same(0) && same(2) && same(4) && same(16)
}

/// M-111: lists held against one another show what library and model have in common.
fn lists_compared(_: &mut Book) -> bool {
    shared_slips_show() && each_part_shows()
}

/// Both pins to 0, then A to 1 in the next pair.
fn sheet_example(book: &mut Book) -> bool {
    let mut desk = Desk::with(&[DS2413], book);
    desk.skip(&[0x5A, 0xFC, 0x03]);
    let first = desk.read() == 0xAA && desk.read() == 0xF0;
    desk.bits(0xFD);
    desk.bits(0x02);
    first && desk.read() == 0xAA && desk.read() == 0xC3
}

/// A DS28EC20 sends F5h while a DS2413 takes a function command from a host that writes
/// ones: it has taken F5h.
fn takes_value(book: &mut Book) -> bool {
    let mut desk = Desk::with(&[DS28EC20, DS2413], book);
    desk.line.images[0] = 0xF5;
    desk.line.table[0].step = Step::ReadData(0);
    desk.line.table[0].bits = VecDeque::from([1, 0, 1, 0, 1, 1, 1, 1]);
    desk.line.table[1].step = Step::FunctionCommand;
    desk.read() == 0xF5 && desk.line.table[1].step == Step::PioRead && desk.read() == 0x0F
}

/// The programs' images hold FFh up there, so only a lent image shows it.
fn last_address(book: &mut Book) -> bool {
    let mut desk = Desk::with(&[DS28EC20], book);
    desk.line.images[0x0A3E] = 0x12;
    desk.line.images[0x0A3F] = 0x34;
    desk.skip(&[0xF0, 0x3E, 0x0A]);
    let read = [desk.read(), desk.read(), desk.read()];
    desk.skip(&[0xF0, 0x40, 0x0A]);
    read == [0x12, 0x34, 0xFF] && desk.read() == 0xFF
}

fn copy_below(book: &mut Book) -> bool {
    let mut desk = Desk::with(&[DS28EC20], book);
    desk.line.table[0].t = 0x0006;
    desk.line.table[0].es = 0x05;
    desk.line.pads.fill(0x00);
    desk.skip(&[0x55, 0x06, 0x00, 0x05]);
    desk.read() == 0xAA && desk.es() == 0x85 && desk.line.images == [0xFF; IMAGE]
}

fn event_refusals(book: &mut Book) -> bool {
    let mut line = Desk::with(&[DS28EC20, DS2413], book).line;
    let six = line.event(260, 0, 0, book) == Err(6) && line.event(5, 9, 9, book) == Err(6);
    let seven = line.event(4, 0, 0, book) == Err(7)
        && line.event(4, 2, 0, book) == Err(7)
        && line.event(4, 1, 4, book) == Err(7)
        && line.event(4, 1, 3, book) == Ok(1);
    let mut small = line.clone();
    small.pads.truncate(PAD - 1);
    let five = small.event(9, 0, 0, book) == Err(5);
    small.table[1].levels = 4;
    let eight = small.event(9, 0, 0, book) == Err(8);
    let spoils: [fn(&mut Chip); 7] = [
        |chip| chip.kind = LAST_KIND + 1,
        |chip| chip.es |= 0x40,
        |chip| chip.latches = 4,
        |chip| chip.step = Step::PioPair,
        |chip| chip.step = Step::SearchTake(64),
        |chip| chip.step = Step::WriteData(32),
        |chip| chip.step = Step::SendCode,
    ];
    let spoiled = |spoil: &fn(&mut Chip)| {
        let mut line = line.clone();
        spoil(&mut line.table[0]);
        line.refusal() == Some(8)
    };
    let all = spoils.iter().all(spoiled);
    let mut long = Desk::with(&[DS2413; 16], book).line;
    let fits = long.event(2, 0, 0, book) == Ok(0);
    long.table.push(Chip::at_set_up(DS2413, 99));
    six && seven && five && eight && all && fits && long.event(2, 0, 0, book) == Err(8)
}

fn search_refusals(book: &mut Book) -> bool {
    let mut line = four(book);
    line.images.push(0);
    let nothing = |refusal| Found {
        refusal: Some(refusal),
        list: Vec::new(),
        resets: 0,
        slots: 0,
    };
    let five = search_line(&mut line, 16, book) == nothing(5);
    line.table[0].latches = 9;
    five && search_line(&mut line, 16, book) == nothing(8)
}

/// Skip ROM, PIO Access Read, the status and three bits of the next: as by events. Refused runs write nothing.
fn run_of_slots(book: &mut Book) -> bool {
    let mut desk = Desk::with(&[DS2413], book);
    desk.event(2);
    let table = |desk: &Desk| -> Vec<u8> { desk.line.table.iter().flat_map(pack).collect() };
    let mut lent = Lent {
        table: table(&desk),
        ..Lent::default()
    };
    for byte in [0xCC, 0xF5, 0xFF] {
        desk.bits(byte);
    }
    desk.lowest(7, 3);
    let wanted = table(&desk);
    let mut run = Run {
        slots: 27,
        bits: vec![0xCC, 0xF5, 0xFF, 0xE7],
        answers: vec![0xEE; 4],
    };
    let taken = lent.run(&mut run, book) == 27;
    let read = run.answers == [0xCC, 0xF5, 0x0F, 0x07] && lent.table == wanted;
    run.slots = 33;
    let five = lent.run(&mut run, book) == -5;
    lent.table.push(0);
    let eight = lent.run(&mut run, book) == -8;
    taken && read && five && eight && run.answers == [0xCC, 0xF5, 0x0F, 0x07]
}

fn few_places(book: &mut Book) -> bool {
    let card = [record(1, 1), record(2, 2), record(1, 3)].concat();
    let refusal = |places, book: &mut Book| read_card(&card, places, book).err();
    refusal(3, book).is_none()
        && refusal(2, book) == Some((1, 24))
        && refusal(1, book) == Some((1, 12))
}

/// Power on leaves the latches of a DS28EC20 and the registers of a DS2413.
fn other_fields(book: &mut Book) -> bool {
    let mut desk = Desk::with(&[DS28EC20, DS2413], book);
    desk.line.table[0].latches = 1;
    desk.line.table[0].levels = 2;
    desk.line.table[1].t = 0x1234;
    desk.line.table[1].es = AA;
    desk.event(3);
    let [memory, pio] = &desk.line.table[..] else {
        return false;
    };
    (memory.latches, memory.levels, memory.t, memory.es) == (1, 2, 0, 0x20)
        && (pio.t, pio.es, pio.latches, pio.levels) == (0x1234, AA, 3, 3)
}

/// The bytes that hex digits stand for; spaces are passed over.
fn bytes(digits: &str) -> Vec<u8> {
    let digits: Vec<char> = digits.chars().filter(|digit| *digit != ' ').collect();
    let byte = |pair: &[char]| u8::from_str_radix(&pair.iter().collect::<String>(), 16);
    let bytes = digits.chunks(2).map(|pair| byte(pair).expect("hex digits"));
    bytes.collect()
}

/// What is printed for a recording in hex digits.
fn played(digits: &str, book: &mut Book) -> String {
    let printed = playback(&bytes(digits), book);
    String::from_utf8(printed).expect("characters")
}

/// A DS2413 of code 3Ah.
const CARD: &str = "0A000200 3A00000000000000";
/// The README's worked recording.
const WORKED: &str = "0A000200 3A00000000000000 02001100 07001000 1800 CCF5FF 04001300 0002 \
                      02001100 07001000 1800 CCF5FF 04001300 0100";

fn worked_recording(book: &mut Book) -> bool {
    played(WORKED, book) == "000110011101011111111000010001100111010111101111000\nrefused 7 at 44\n"
}

/// Records at fault, each behind the records that its case needs.
fn recording_refusals(book: &mut Book) -> bool {
    let full = CARD.repeat(16);
    let mut gives = |first: &str, rest: &str, answers: &str, refusal: u8| {
        let at = bytes(first).len();
        let want = format!("{answers}\nrefused {refusal} at {at}\n");
        played(&format!("{first} {rest}"), book) == want
    };
    let reset = format!("{CARD} 02001100");
    let none = format!("{CARD} 04001000 0000");
    let sixteen = format!("{full} 02001200");
    // fewer than 4 bytes
    gives("", "02", "", 3)
        && gives(CARD, "0200", "", 3)
        && gives(&reset, "020011", "0", 3)
        // the kind before length and body
        && gives(CARD, "00000000", "", 2)
        && gives(CARD, "0A000300", "", 2)
        && gives(&reset, "02001400", "0", 2)
        && gives(&reset, "FFFF1101", "0", 2)
        // the length and a cut body
        && gives(&reset, "03001100 00", "0", 3)
        && gives(&reset, "02001300", "0", 3)
        && gives(&reset, "04001300 00", "0", 3)
        && gives(&reset, "02001000", "0", 3)
        && gives(&reset, "03001000 00", "0", 3)
        && gives(&reset, "04001000 01", "0", 3)
        && gives(&reset, "05001000 0900 FF", "0", 3)
        && gives(&reset, "06001000 0800 FFFF", "0", 3)
        && gives(&reset, "06001000 0900 FF", "0", 3)
        // a cut card after an event, then a 17th, then 9
        && gives(&reset, "0A000200 3A", "0", 3)
        && gives(&sixteen, "09000100 000000000000", "1", 3)
        && gives(&full, CARD, "", 1)
        && gives(&sixteen, CARD, "1", 1)
        && gives(&reset, CARD, "0", 9)
        && gives(&none, CARD, "", 9)
        // unused bits, before any bit of the run
        && gives(&reset, "05001000 0100 80", "0", 10)
        && gives(&reset, "06001000 0F00 FF80", "0", 10)
        && gives(&reset, "06001000 0100 8000", "0", 3)
        // the event's own
        && gives(&reset, "04001300 0004", "0", 7)
        && gives(&reset, "04001300 0100", "0", 7)
        && gives("", "04001300 0000", "", 7)
        && gives("0A000100 3A00000000000000", "04001300 0000", "", 7)
}

fn recording_without_answer(book: &mut Book) -> bool {
    played("", book) == "\n"
        && played(CARD, book) == "\n"
        && played("04001000 0000", book) == "\n"
        && played("02001200", book) == "1\n"
        && played("02001100 06001000 0900 0401", book) == "1001000001\n"
}

/// The worked recording with its second run cut at every bit.
fn recording_cut(book: &mut Book) -> bool {
    let recording = bytes(WORKED);
    let whole = playback(&recording, book);
    let [before, run, after] = [&recording[..35], &recording[41..44], &recording[44..]];
    (0..=24).all(|at: u16| {
        let number = u32::from_le_bytes([run[0], run[1], run[2], 0]);
        let part = |from: u16, slots: u16| {
            let size = slots.div_ceil(8);
            let bits = (number >> from) & ((1 << slots) - 1);
            let head = [4 + size, 16, slots].map(u16::to_le_bytes).concat();
            [&head, &bits.to_le_bytes()[..size.into()]].concat()
        };
        let parts = [part(0, at), part(at, 24 - at)].concat();
        let moved = format!("refused 7 at {}\n", 35 + parts.len());
        let cut = [before, &parts, after].concat();
        playback(&cut, book) == [&whole[..52], moved.as_bytes()].concat()
    })
}

/// The worked recording in two pieces, broken anywhere: each record's answers come with its last byte.
fn recording_in_pieces(book: &mut Book) -> bool {
    let recording = bytes(WORKED);
    let whole = playback(&recording, book);
    // Answers up to the end of each record.
    let ends = [
        (16, 1),
        (25, 25),
        (31, 26),
        (35, 27),
        (44, 51),
        (50, whole.len()),
    ];
    (0..=recording.len()).all(|at| {
        let mut playing = Playback::new();
        let first = playing.take(&recording[..at], false, book);
        let known = ends.iter().rev().find(|(end, _)| *end <= at);
        let answers = known.map_or(0, |(_, answers)| *answers);
        let second = playing.take(&recording[at..], true, book);
        first == whole[..answers] && [first, second].concat() == whole
    })
}

/// Records that cannot be right behind a card and a reset: refused before more of them comes. A run whose count is
/// not there yet waits for it.
fn recording_heads(book: &mut Book) -> bool {
    let mut prints = |head: &str, want: &str| {
        let recording = bytes(&format!("{CARD} 02001100 {head}"));
        Playback::new().take(&recording, false, book) == want.as_bytes()
    };
    prints("0A006300", "0\nrefused 2 at 16\n")
        && prints("FFFF1100", "0\nrefused 3 at 16\n")
        && prints("FFFF0100", "0\nrefused 3 at 16\n")
        && prints("05001000 0900", "0\nrefused 3 at 16\n")
        && prints("06001000 0800", "0\nrefused 3 at 16\n")
        && prints("06001000 08", "0")
        && prints("06001000 0900 FF", "0")
        && prints("0A000100 43", "0")
}

#[cfg(test)]
mod tests {
    use super::CASES;
    use crate::model::book::{Book, Place, RULES};

    fn holds(name: &str) {
        let found = CASES.iter().find(|(known, _)| *known == name);
        let (_, case) = found.expect("a known case");
        assert!(case(&mut Book::new(None)), "{name}");
    }

    macro_rules! tests {
        ($($test:ident $name:literal,)*) => {
            $(#[test]
            fn $test() {
                holds($name);
            })*
        };
    }

    tests! {
        worked_output "worked list output",
        dead_line "a dead line is not a good code",
        case_1 "bench case 1",
        case_2 "bench case 2",
        case_3 "bench case 3",
        case_4 "bench case 4",
        case_5 "bench case 5",
        case_6 "bench case 6",
        case_7 "bench case 7",
        case_8 "bench case 8",
        case_9 "bench case 9",
        short_address "a short address sets PF",
        short_at_reset "a short address acts at the reset",
        short_after_copy "a short address after a copy",
        short_power_on "a power on at a short address",
        other_cuts "other cuts set no PF",
        after_trouble "the list after trouble",
        lists_compared "lists held against one another",
        figure_trace "figure 4: the trace of 01h",
        figure_bytes "figure 4: every byte from every register",
        sheet_example "the DS2413 sheet's write example",
        takes_value "a receiving chip takes the slot's value",
        last_address "the last address is read",
        copy_below "E below T mod 32 copies nothing",
        event_refusals "refusals of an event",
        search_refusals "refusals of a search",
        run_of_slots "a run of slots",
        few_places "a card with few places",
        other_fields "fields of the other kind stay",
        worked_recording "the worked recording",
        recording_refusals "a recording's refusals in order",
        recording_without_answer "a recording without an answer",
        recording_cut "a run cut at every bit",
        recording_in_pieces "a recording in two pieces",
        recording_heads "a recording refused by a head",
        worked_pages "the worked pages",
        every_setpoint "every byte and pair of a setpoint",
        setpoint_refusals "a setpoint's refusals in order",
        setpoint_written "a setpoint over any page",
        setpoint_values "a setpoint of any length",
        setpoint_words "words without a setpoint",
        hex_table "the table of Intel HEX files",
        hex_written "the text of an image",
        hex_forms "records of any form",
        hex_refusals "a file's refusals in order",
        hex_addresses "addresses of data",
        hex_judged "when a line is judged",
        hex_words "what hexfile says",
        round_examples "the examples of a round",
        round_sixteen "a round of 16 memories",
        round_borne "who bears a code",
        round_counted "the events of a round",
        round_refusals "a round's refusals in order",
        round_words "what round is asked",
        round_cards "a round of a refused card",
    }

    /// The cases reach every rule that no program can show.
    #[test]
    fn lent_rules() {
        let mut book = Book::new(None);
        for (_, case) in CASES {
            case(&mut book);
        }
        for (rule, place, text) in RULES {
            assert!(*place != Place::Lent || book.count(*rule) > 0, "{text}");
        }
    }
}
