//! The DS28EC20's map and its protection.

use super::book::{Book, Rule, Slip};

/// Bytes of one image, 0000h to 0A3Fh.
pub const IMAGE: usize = 2624;
/// Bytes of one scratchpad, and of one page.
pub const PAD: usize = 32;
/// The last readable address.
pub const LAST: usize = 0x0A3F;
/// The first control byte, which is the first byte of the register page.
pub const CONTROLS: usize = 0x0A00;
/// The block lock.
pub const BLOCK_LOCK: usize = 0x0A1E;
/// The register page lock.
pub const PAGE_LOCK: usize = 0x0A1F;
/// The first byte that is read only.
pub const READ_ONLY: usize = 0x0A20;

/// A mark is 55h or AAh.
pub fn is_mark(byte: u8) -> bool {
    byte == 0x55 || byte == 0xAA
}

/// The control byte of the block that holds a data address.
pub fn control(address: usize, memory: &[u8]) -> u8 {
    memory[CONTROLS + address / 256]
}

/// Whether a byte up to the last address is held.
fn held(address: usize, memory: &[u8], book: &Book) -> bool {
    match address {
        0x0000..=0x09FF => control(address, memory) == 0x55,
        0x0A20..=0x0A3F => !book.slips(Slip::ReadOnlyOpen),
        _ if book.slips(Slip::BlockTen) && memory[0x0A0A] == 0x55 => true,
        0x0A00..=0x0A09 => is_mark(memory[address]) && !book.slips(Slip::ControlOpen),
        0x0A1E | 0x0A1F => is_mark(memory[address]) && !book.slips(Slip::LockOpen),
        _ => book.slips(Slip::UserHeld) && is_mark(memory[address]),
    }
}

/// Whether a byte up to the last address only falls.
fn only_falls(address: usize, memory: &[u8], book: &Book) -> bool {
    address < CONTROLS && control(address, memory) == 0xAA && !book.slips(Slip::EpromWrites)
}

/// The rule of a byte: what a byte sent to an address becomes.
pub fn rule_of_byte(address: usize, sent: u8, memory: &[u8], book: &mut Book) -> u8 {
    note_byte(address, memory, book);
    if address > LAST {
        return if book.slips(Slip::AboveHeld) {
            0xFF
        } else {
            sent
        };
    }
    if held(address, memory, book) {
        memory[address]
    } else if only_falls(address, memory, book) {
        memory[address] & sent
    } else {
        sent
    }
}

/// Whether the page that starts at this address is closed to copying.
pub fn is_closed(page: usize, memory: &[u8], book: &Book) -> bool {
    if page >= READ_ONLY {
        return !book.slips(Slip::ReadOnlyCopies) || page > LAST;
    }
    if page == CONTROLS {
        return is_mark(memory[PAGE_LOCK]) && !book.slips(Slip::RegisterOpen);
    }
    let lock = memory[BLOCK_LOCK];
    let locked = if book.slips(Slip::CloseHalf) {
        lock == 0x55
    } else {
        is_mark(lock) && !book.slips(Slip::CloseNot)
    };
    let shut = match control(page, memory) {
        0x55 => true,
        0xAA => book.slips(Slip::CloseEprom),
        _ => book.slips(Slip::CloseOpen),
    };
    shut && locked
}

/// Counts which part of the rule of a byte is met.
fn note_byte(address: usize, memory: &[u8], book: &mut Book) {
    if address > LAST {
        book.saw(Rule::ByteAbove);
        return;
    }
    let marked = is_mark(memory[address]);
    book.saw(match address {
        0x0000..=0x09FF => match control(address, memory) {
            0x55 => Rule::ByteHeld,
            0xAA => Rule::ByteFalls,
            0xFF => Rule::ByteOpen,
            _ => Rule::ByteOddControl,
        },
        0x0A00..=0x0A09 if marked => Rule::ByteControlMark,
        0x0A00..=0x0A09 => Rule::ByteControlFree,
        0x0A1E if marked => Rule::ByteBlockLockMark,
        0x0A1F if marked => Rule::BytePageLockMark,
        0x0A1E | 0x0A1F => Rule::ByteLockFree,
        0x0A20..=0x0A3F => Rule::ByteReadOnly,
        _ if marked => Rule::ByteUserMark,
        _ => Rule::ByteUser,
    });
}
