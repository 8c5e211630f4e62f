//! What deliberate slips make of a round; without a slip nothing is changed here.

use super::{codes, images_of, is_borne, memories, refused, sharing, Page, Round, PAGE};
use crate::model::book::{Book, Slip};
use crate::model::chip::{Chip, DS2413, DS28EC20};
use crate::model::crc::{check_of, Check};
use crate::model::line::Line;

/// What a host sends for a page: Match ROM, the eight bytes of the code, Read Memory and its address.
pub(super) fn sent(mut sent: Vec<u8>, book: &Book) -> Vec<u8> {
    match () {
        () if book.slips(Slip::RoundSkip) => sent.splice(..9, [0xCC]).for_each(drop),
        () if book.slips(Slip::RoundCodeTurned) => sent[1..9].reverse(),
        () if book.slips(Slip::RoundCodeCut) => sent[8] = 0,
        () if book.slips(Slip::RoundNextPage) => sent[10] = 0x20,
        () if book.slips(Slip::RoundNextByte) => sent[10] = 0x01,
        () if book.slips(Slip::RoundNextBlock) => sent[11] = 0x01,
        () if book.slips(Slip::RoundPadRead) => sent[9..].copy_from_slice(&[0xAA, 0xFF, 0xFF]),
        () if book.slips(Slip::RoundExtended) => sent[9] = 0xA5,
        () => {}
    }
    sent
}

/// Whether the page of a listed code is read, which is borne or not.
pub(super) fn is_read(borne: bool, table: &[Chip], code: u64, book: &Book) -> bool {
    let mut kinds = sharing(table, code).map(|chip| chip.is(DS28EC20));
    match code {
        _ if book.slips(Slip::RoundFamily) => code as u8 == 0x43,
        _ if book.slips(Slip::RoundSwitchRead) => true,
        _ if book.slips(Slip::RoundBothNot) => kinds.all(|memory| memory),
        _ if book.slips(Slip::RoundFirstKind) => kinds.next() == Some(true),
        _ if book.slips(Slip::RoundLastKind) => kinds.last() == Some(true),
        _ if book.slips(Slip::RoundGoodRead) => borne && check_of(code) == Check::Good,
        _ if book.slips(Slip::RoundZeroUnread) => borne && code != 0,
        _ => borne,
    }
}

/// The bytes that a page buffer must have.
pub(super) fn asked(asked: usize, table: &[Chip], book: &Book) -> usize {
    match table {
        _ if book.slips(Slip::RoundBufferChips) => PAGE * memories(table),
        _ if book.slips(Slip::RoundBufferCodes) => PAGE * codes(table).len(),
        _ if book.slips(Slip::RoundBufferFamily) => {
            let all = codes(table).into_iter();
            PAGE * all.filter(|code| *code as u8 == 0x43).count()
        }
        _ => asked,
    }
}

/// Whether a page buffer of another size is taken.
pub(super) fn fits(buffer: usize, asked: usize, book: &Book) -> bool {
    book.slips(Slip::RoundBufferMore) && buffer > asked
        || book.slips(Slip::RoundBufferLess) && buffer < asked
        || book.slips(Slip::RoundBufferOne) && buffer == asked + 1
        || book.slips(Slip::RoundBufferPart) && buffer / PAGE == asked / PAGE
        || book.slips(Slip::RoundBufferMost) && buffer == 512
        || book.slips(Slip::RoundBufferNone) && buffer == 0
        || book.slips(Slip::RoundBufferByte) && buffer % 256 == asked % 256
}

/// Whether a slip refuses by 4 where there are places enough.
pub(super) fn is_refused(done: &Round, table: &[Chip], places: usize, book: &Book) -> bool {
    book.slips(Slip::RoundFourChips) && places < table.len()
        || book.slips(Slip::RoundFourExact) && places == done.list.len()
        || book.slips(Slip::RoundFourNoChips) && places == 0
}

/// The codes of the pages that were read.
fn read_codes(done: &Round, table: &[Chip], book: &Book) -> Vec<u64> {
    let listed = done.list.iter().copied();
    listed
        .filter(|code| is_read(is_borne(table, *code), table, *code, book))
        .take(done.pages.len())
        .collect()
}

/// What slips make of the pages.
fn misread(done: &mut Round, line: &Line, book: &Book) {
    let table = &line.table;
    let read = read_codes(done, table, book);
    let mut both: Vec<(u64, Page)> = read.iter().copied().zip(done.pages.clone()).collect();
    let place = |code: u64| table.iter().position(|chip| chip.code == code);
    let memory_place = |code: u64| {
        let at = |chip: &Chip| chip.code == code && chip.is(DS28EC20);
        table.iter().position(at)
    };
    let switch_among = |code: u64| sharing(table, code).any(|chip| chip.is(DS2413));
    match () {
        () if book.slips(Slip::RoundTableOrder) => both.sort_by_key(|(code, _)| place(*code)),
        () if book.slips(Slip::RoundMemoryOrder) => {
            both.sort_by_key(|(code, _)| memory_place(*code));
        }
        () if book.slips(Slip::RoundRising) => both.sort_by_key(|(code, _)| *code),
        () if book.slips(Slip::RoundBackward) => both.reverse(),
        () => {}
    }
    for (code, page) in &mut both {
        let images = images_of(line, *code);
        let byte = |image: &[u8], at: usize| image[at];
        let own = |image: Option<&&[u8]>| image.map(|image| std::array::from_fn(|at| image[at]));
        let slipped = match () {
            () if book.slips(Slip::RoundFirst) => own(images.first()),
            () if book.slips(Slip::RoundLast) => own(images.last()),
            () if book.slips(Slip::RoundOr) => Some(std::array::from_fn(|at| {
                images.iter().fold(0, |all, image| all | byte(image, at))
            })),
            () if book.slips(Slip::RoundXor) => Some(std::array::from_fn(|at| {
                images.iter().fold(0, |all, image| all ^ byte(image, at))
            })),
            () if book.slips(Slip::RoundTwo) => Some(std::array::from_fn(|at| {
                let two = images.iter().take(2);
                two.fold(0xFF, |all, image| all & byte(image, at))
            })),
            () if book.slips(Slip::RoundSwitchLow) && switch_among(*code) => Some([0; PAGE]),
            () if book.slips(Slip::RoundSwitchOnes) && switch_among(*code) => Some([0xFF; PAGE]),
            () => None,
        };
        *page = slipped.unwrap_or(*page);
        if book.slips(Slip::RoundBitsTurned) {
            *page = page.map(u8::reverse_bits);
        }
        if book.slips(Slip::RoundLastByte) {
            page[PAGE - 1] = 0xFF;
        }
    }
    done.pages = both.into_iter().map(|(_, page)| page).collect();
    if book.slips(Slip::RoundFourPages) && done.refusal == Some(4) {
        let listed = done.list.iter().filter(|code| is_borne(table, **code));
        done.pages = listed.map(|_| [0xFF; PAGE]).collect();
    }
    if book.slips(Slip::RoundTwice) {
        let times = |code: &u64| images_of(line, *code).len();
        let pages = read.iter().zip(&done.pages);
        done.pages = pages
            .flat_map(|(code, page)| vec![*page; times(code)])
            .collect();
        let more = read.iter().map(|code| times(code) as u64 - 1).sum::<u64>();
        done.resets += more;
        done.slots += 352 * more;
    }
}

/// Whether the page buffer is judged after the search.
pub(super) fn is_judged_late(book: &Book) -> bool {
    [
        Slip::RoundBufferLate,
        Slip::RoundBufferListed,
        Slip::RoundBufferFour,
    ]
    .iter()
    .any(|slip| book.slips(*slip))
}

/// What slips make of a round that is done, with a page buffer of so many bytes, which fits or not.
pub(super) fn spoilt(
    mut done: Round,
    line: &Line,
    buffer: usize,
    fits: bool,
    book: &Book,
) -> Round {
    let listed = done.list.iter();
    let pages = listed.filter(|code| is_borne(&line.table, **code)).count();
    match () {
        () if book.slips(Slip::RoundBufferLate) && !fits => done.refusal = Some(5),
        () if book.slips(Slip::RoundBufferListed) && buffer != PAGE * pages => return refused(5),
        () if book.slips(Slip::RoundBufferFour) && !fits && done.refusal.is_none() => {
            return refused(5);
        }
        () => {}
    }
    misread(&mut done, line, book);
    miscount(&mut done, line, book);
    done
}

/// What slips make of the counts.
fn miscount(done: &mut Round, line: &Line, book: &Book) {
    let pages = done.pages.len() as u64;
    let listed = done.list.len() as u64;
    let all = codes(&line.table).len() as u64;
    match () {
        () if book.slips(Slip::RoundSkip) => done.slots += 64 * pages,
        () if book.slips(Slip::RoundSlots351) => done.slots -= pages,
        () if book.slips(Slip::RoundSlots353) => done.slots += pages,
        () if book.slips(Slip::RoundSlots256) => done.slots -= 96 * pages,
        () if book.slips(Slip::RoundSlotsSearch) => done.slots -= 352 * pages,
        () if book.slips(Slip::RoundSlotsPages) => done.slots -= 200 * listed,
        () if book.slips(Slip::RoundSlots192) => done.slots -= 8 * listed,
        () if book.slips(Slip::RoundSlotsResets) => done.slots += done.resets,
        () if book.slips(Slip::RoundSlots8191) => done.slots %= 8192,
        () if book.slips(Slip::RoundSlotsByte) => done.slots %= 256,
        () if book.slips(Slip::RoundResetsSearch) => done.resets -= pages,
        () if book.slips(Slip::RoundResetsPages) => done.resets -= listed,
        () if book.slips(Slip::RoundResetsNone) && all == 0 => done.resets = 0,
        () if book.slips(Slip::RoundResetsOne) => done.resets += 1,
        () if book.slips(Slip::RoundResetsNibble) => done.resets %= 32,
        () if book.slips(Slip::RoundTurned) => {
            std::mem::swap(&mut done.resets, &mut done.slots);
        }
        () => {}
    }
    if done.refusal != Some(4) {
        return;
    }
    match () {
        () if book.slips(Slip::RoundFourNothing) => (done.resets, done.slots) = (0, 0),
        () if book.slips(Slip::RoundFourWhole) => (done.resets, done.slots) = (all, 200 * all),
        () if book.slips(Slip::RoundFourRead) => {
            let codes = done.list.iter();
            let read = codes.filter(|code| is_borne(&line.table, **code)).count() as u64;
            done.resets += read;
            done.slots += 352 * read;
        }
        () if book.slips(Slip::RoundFourReset) => done.resets += 1,
        () if book.slips(Slip::RoundFourNoPlace) && listed == 0 => done.resets = 0,
        () if book.slips(Slip::RoundFourUnlisted) => done.list.clear(),
        () => {}
    }
}
