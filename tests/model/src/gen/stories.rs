//! Stories: exchanges of every command, each told on its own and woven into random walks.

use super::bench::Bench;
use super::cards::Style;
use crate::model::book::Rule;
use crate::model::chip::{AA, DS2413, DS28EC20, PF};
use crate::model::line::MOST;
use crate::model::memory::{BLOCK_LOCK, CONTROLS, LAST, PAD, PAGE_LOCK, READ_ONLY};
use crate::model::search::{search, Host};

/// A named way to write a script, and the line it is made for.
pub struct Story {
    pub name: &'static str,
    pub style: Style,
    pub tell: fn(&mut Bench<'_>),
}

/// Every story.
pub const STORIES: &[Story] = &[
    story("no chips", Style::Empty, no_chips),
    story("read rom", Style::Mixed, read_rom),
    story("match rom", Style::Mixed, match_rom),
    story("search rom", Style::Mixed, search_rom),
    story("skip and resume", Style::Mixed, skip_and_resume),
    story("other rom commands", Style::Mixed, other_rom),
    story("rom commands cut", Style::Mixed, rom_cut),
    story("power on", Style::Mixed, power_on),
    story("equal codes", Style::Twins, twins),
    story("write scratchpad", Style::OneMemory, write_pad),
    story("write to the end", Style::Mixed, write_to_end),
    story("write cut", Style::Mixed, write_cut),
    story("short address", Style::OneMemory, short_address),
    story("copy", Style::Mixed, copy),
    story("copy with wrong bytes", Style::Mixed, copy_wrong),
    story("copy cut", Style::OneMemory, copy_cut),
    story("copy up to E", Style::OneMemory, copy_to_e),
    story("copy after read memory", Style::OneMemory, copy_after_read),
    story("held block", Style::Mixed, held_block),
    story("falling block", Style::Mixed, falling_block),
    story("block lock", Style::OneMemory, block_lock),
    story("odd control byte", Style::OneMemory, odd_control),
    story("register page", Style::OneMemory, register_page),
    story("register page lock", Style::Mixed, page_lock),
    story("user bytes", Style::OneMemory, user_bytes),
    story("read only page", Style::OneMemory, read_only),
    story("above the last address", Style::OneMemory, above),
    story("address only", Style::Mixed, address_only),
    story("read memory", Style::Mixed, read_memory),
    story("other functions", Style::Mixed, other_functions),
    story("pio read", Style::OnePio, pio_read),
    story("pio write", Style::Mixed, pio_write),
    story("pio cut", Style::OnePio, pio_cut),
    story("all together", Style::Full, together),
    story("whole search", Style::Any, whole_search),
    story("levels", Style::Mixed, levels),
    story("refused events", Style::Mixed, refused),
    story("host writes over senders", Style::Mixed, over_senders),
    story("noise", Style::Any, noise),
    story("walk", Style::Any, walk),
];

const fn story(name: &'static str, style: Style, tell: fn(&mut Bench<'_>)) -> Story {
    Story { name, style, tell }
}

/// Slots and resets on a line that may be empty.
fn no_chips(b: &mut Bench<'_>) {
    b.put_all(b"0123 0110");
    b.reset();
    b.write(&[0xCC, 0xAA]);
    b.read(1);
    b.levels(0, 3);
    b.power_on();
    whole_search(b);
}

/// Read ROM, and RC after it.
fn read_rom(b: &mut Bench<'_>) {
    let Some(chip) = b.any() else {
        return noise(b);
    };
    b.match_rom(chip);
    b.rom(0x33);
    b.read(8);
    b.speak(chip);
    b.rom(0xA5);
    b.speak(chip);
}

/// Match ROM with a right code and with codes that differ in one bit.
fn match_rom(b: &mut Bench<'_>) {
    let Some(chip) = b.any() else {
        return noise(b);
    };
    b.match_rom(chip);
    b.speak(chip);
    let code = b.chip(chip).code;
    for place in [b.rng.below(64), 0, 63] {
        b.match_code(code ^ 1 << place);
        b.speak(chip);
        b.rom(0xA5);
        b.speak(chip);
    }
}

/// Search ROM by hand: along a code, off it, along random branches.
fn search_rom(b: &mut Bench<'_>) {
    let Some(chip) = b.any() else {
        return noise(b);
    };
    let code = b.chip(chip).code;
    b.search_code(code);
    b.speak(chip);
    b.rom(0xA5);
    b.speak(chip);
    let place = b.rng.below(64);
    b.search_code(code ^ 1 << place);
    b.speak(chip);
    b.rom(0xA5);
    b.speak(chip);
    b.rom(0xF0);
    for _ in 0..64 {
        let bit = b.slot(1);
        let complement = b.slot(1);
        let free = b.rng.below(2) as u8;
        b.slot(if bit == complement { free } else { bit });
    }
    b.speak(chip);
}

/// Skip ROM and Resume, after each command that clears RC.
fn skip_and_resume(b: &mut Bench<'_>) {
    let Some(chip) = b.any() else {
        return noise(b);
    };
    for command in [0xCC, 0x33, 0xF0, 0x55] {
        b.match_rom(chip);
        b.speak(chip);
        for _ in 0..2 {
            b.rom(0xA5);
            b.speak(chip);
        }
        b.rom(command);
        b.read_bits(3);
        b.rom(0xA5);
        b.speak(chip);
    }
    b.rom(0xCC);
    b.speak(chip);
}

/// ROM commands that nobody knows here, and RC after them.
fn other_rom(b: &mut Bench<'_>) {
    let Some(chip) = b.any() else {
        return noise(b);
    };
    b.match_rom(chip);
    let any = b.rng.byte();
    for command in [0x3C, 0x69, 0xEC, 0x00, 0xFF, any] {
        b.rom(command);
        b.speak(chip);
        b.rom(0xA5);
        b.speak(chip);
    }
}

/// ROM commands and Match ROM cut by a reset, and RC after them.
fn rom_cut(b: &mut Bench<'_>) {
    let Some(chip) = b.any() else {
        return noise(b);
    };
    b.match_rom(chip);
    b.reset();
    let command = b.rng.pick(&[0x55, 0xCC, 0x33, 0xF0]);
    let bits = b.rng.between(1, 7);
    b.write_bits(&[command], bits);
    b.rom(0xA5);
    b.speak(chip);
    b.rom(0x55);
    let code = b.chip(chip).code.to_le_bytes();
    let bits = b.rng.below(64);
    b.write_bits(&code, bits);
    b.rom(0xA5);
    b.speak(chip);
    b.match_rom(chip);
    let bits = b.rng.between(1, 7);
    b.write_bits(&[0x0F], bits);
    b.rom(0xA5);
    b.speak(chip);
}

/// Power on over state of every sort.
fn power_on(b: &mut Bench<'_>) {
    if let Some(chip) = b.some(DS28EC20) {
        b.power_on();
        b.copy(chip, [0x00, 0x00, 0x20]);
        b.copy(chip, [0x00, 0x00, 0x00]);
        let data = b.bytes(9);
        b.write_pad(chip, 0x0106, &data);
        b.write_bits(&data, 3);
        b.power_on();
        b.read_pad(chip, 38);
        b.write_pad(chip, 0x0006, &data);
        b.power_on();
        b.write_pad(chip, 0x0000, &[]);
        b.read_pad(chip, 38);
    }
    if let Some(chip) = b.some(DS2413) {
        b.levels(chip, 2);
        b.reach(chip);
        b.write(&[0x5A, 0xFD, 0x02]);
        b.read(2);
        b.power_on();
        b.write(&[0xCC, 0xF5]);
        b.read(2);
        b.reach(chip);
        b.speak(chip);
        b.levels(chip, 3);
    }
    if let Some(chip) = b.any() {
        b.match_rom(chip);
        b.power_on();
        b.write(&[0xCC]);
        b.speak(chip);
        b.rom(0xA5);
        b.speak(chip);
        b.power_on();
        b.power_on();
        b.reset();
        b.write(&[0xCC]);
        b.speak(chip);
    }
}

/// Chips of equal code answer together.
fn twins(b: &mut Bench<'_>) {
    let Some(chip) = b.any() else {
        return noise(b);
    };
    b.match_rom(chip);
    b.speak(chip);
    if let Some(chip) = b.some(DS28EC20) {
        let data = b.bytes(3);
        b.commit(chip, 0x0040, &data);
        b.read_memory(chip, 0x003F, 6);
    }
    if let Some(chip) = b.some(DS2413) {
        let levels = b.rng.below(4);
        b.levels(chip, levels);
        b.match_rom(chip);
        b.speak(chip);
        b.match_rom(chip);
        b.write(&[0x5A, 0xFE, 0x01]);
        b.read(2);
    }
    whole_search(b);
}

/// Write Scratchpad at all sorts of addresses, then what it holds.
fn write_pad(b: &mut Bench<'_>) {
    let Some(chip) = b.some(DS28EC20) else {
        return noise(b);
    };
    for _ in 0..6 {
        let address = b.address();
        let data = b.data_for(address);
        b.write_pad(chip, address, &data);
        let bits = b.rng.pick(&[0, 0, 16, 20]);
        b.read_bits(bits);
        b.read_pad(chip, 40);
    }
    b.commit(chip, 0x0020, &[0x11, 0x22]);
    b.write_pad(chip, 0x0020, &[0x33]);
    b.read_pad(chip, 8);
}

/// Write Scratchpad to offset 31: CRC-16 and ones.
fn write_to_end(b: &mut Bench<'_>) {
    let Some(chip) = b.some(DS28EC20) else {
        return noise(b);
    };
    let offset = b.rng.below(PAD);
    for address in [0x0A3F, 0x0A20 + offset, 0x0100 + offset, 0x0A00 + offset] {
        let data = b.bytes(PAD - address % PAD);
        b.write_pad(chip, address, &data);
        b.read(4);
        b.read_pad(chip, 40);
    }
}

/// Write Scratchpad cut inside bytes and between them.
fn write_cut(b: &mut Bench<'_>) {
    let Some(chip) = b.some(DS28EC20) else {
        return noise(b);
    };
    let data = b.bytes(3);
    for whole in [0, 0, 2, 2] {
        let bits = b.rng.between(1, 7);
        b.write_pad(chip, 0x0064, &data[..whole]);
        b.write_bits(&data, bits);
        b.read_pad(chip, 12);
        b.copy_right(chip);
        let mut bytes = b.right(chip);
        bytes[2] &= !PF;
        b.copy(chip, bytes);
        b.write_pad(chip, 0x0064, &data[..whole]);
        b.read_pad(chip, 12);
        b.copy_right(chip);
        b.read_page(chip, 0x0064);
    }
}

/// Write Scratchpad cut before its 16th address bit: PF from 0 and from 1, without AA and with it;
/// inside its command byte; and by a power on.
fn short_address(b: &mut Bench<'_>) {
    let Some(chip) = b.some(DS28EC20) else {
        return noise(b);
    };
    let address = 256 * b.free_block(chip) + 6;
    for bits in [0, b.rng.between(1, 7), 8, b.rng.between(9, 15)] {
        let data = b.bytes(2);
        b.write_pad(chip, address, &data);
        b.short_address(chip, bits);
        b.read_pad(chip, 6);
        b.copy_right(chip);
        b.read_memory(chip, address, 2);
        b.commit(chip, address, &data);
        for _ in 0..2 {
            b.short_address(chip, bits);
            b.read_pad(chip, 3);
        }
        b.copy_right(chip);
    }
    b.write_pad(chip, address, &[0x12, 0x34]);
    b.reach(chip);
    let bits = b.rng.between(1, 7);
    b.write_bits(&[0x0F], bits);
    b.read_pad(chip, 3);
    b.copy_right(chip);
    let bits = b.rng.below(16);
    b.short_address(chip, bits);
    b.power_on();
    b.read_pad(chip, 6);
}

/// Copy carried out, stale, and carried out again.
fn copy(b: &mut Bench<'_>) {
    let Some(chip) = b.some(DS28EC20) else {
        return noise(b);
    };
    let block = b.free_block(chip);
    let address = b.in_block(block);
    let data = b.data_for(address);
    b.write_pad(chip, address, &data);
    let stale = b.right(chip);
    b.read_pad(chip, 5);
    b.copy(chip, stale);
    b.read_pad(chip, 38);
    b.copy(chip, stale);
    b.read_pad(chip, 4);
    b.copy_right(chip);
    b.read_page(chip, address);
    let wrong = [stale[0] ^ 1, stale[1], stale[2] | AA];
    b.copy(chip, wrong);
    b.read_pad(chip, 4);
    b.write_pad(chip, address, &[]);
    b.read_pad(chip, 4);
}

/// Copy with one wrong bit in each of the three bytes.
fn copy_wrong(b: &mut Bench<'_>) {
    let Some(chip) = b.some(DS28EC20) else {
        return noise(b);
    };
    let block = b.free_block(chip);
    let address = b.in_block(block);
    let data = b.bytes(2);
    b.write_pad(chip, address, &data);
    for at in 0..3 {
        let mut bytes = b.right(chip);
        bytes[at] ^= 1 << b.rng.below(8);
        b.copy(chip, bytes);
        b.read_pad(chip, 3);
    }
    let mut bytes = b.right(chip);
    bytes[2] |= AA;
    b.copy(chip, bytes);
    b.read_page(chip, address);
    b.copy_right(chip);
    b.read_page(chip, address);
}

/// Copy cut inside its three bytes.
fn copy_cut(b: &mut Bench<'_>) {
    let Some(chip) = b.some(DS28EC20) else {
        return noise(b);
    };
    let block = b.free_block(chip);
    let address = b.in_block(block);
    let data = b.bytes(2);
    b.write_pad(chip, address, &data);
    for bits in [b.rng.below(16), b.rng.between(16, 22), 23] {
        let right = b.right(chip);
        b.reach(chip);
        b.write(&[0x55]);
        b.write_bits(&right, bits);
        b.read_pad(chip, 3);
        b.read_page(chip, address);
    }
    b.copy_right(chip);
    b.read_page(chip, address);
}

/// A scratchpad with old bytes on both sides of the ones to copy.
fn copy_to_e(b: &mut Bench<'_>) {
    let Some(chip) = b.some(DS28EC20) else {
        return noise(b);
    };
    let data: Vec<u8> = (0..PAD).map(|_| b.rng.byte() & 0x7F).collect();
    b.write_pad(chip, 0x0A40, &data);
    let block = b.free_block(chip);
    let start = b.rng.between(1, 20);
    let address = 256 * block + 64 + start;
    let count = b.rng.between(1, 10);
    let data = b.bytes(count);
    b.commit(chip, address, &data);
    b.read_page(chip, address);
    b.read_pad(chip, 40);
}

/// Copy after Read Memory.
fn copy_after_read(b: &mut Bench<'_>) {
    let Some(chip) = b.some(DS28EC20) else {
        return noise(b);
    };
    let block = b.free_block(chip);
    let address = b.in_block(block);
    let data = b.data_for(address);
    b.write_pad(chip, address, &data);
    let other = b.address();
    b.read_memory(chip, other, 2);
    b.read_pad(chip, 4);
    b.copy_right(chip);
    b.read_page(chip, address);
}

/// A block whose control byte becomes 55h.
fn held_block(b: &mut Bench<'_>) {
    let Some(chip) = b.some(DS28EC20) else {
        return noise(b);
    };
    let block = b.free_block(chip);
    let address = b.in_block(block);
    let data = b.data_for(address);
    b.commit(chip, address, &data);
    b.commit(chip, CONTROLS + block, &[0x55]);
    b.read_page(chip, CONTROLS);
    let data = b.data_for(address);
    b.write_pad(chip, address, &data);
    b.read(3);
    b.read_pad(chip, 40);
    b.copy_right(chip);
    b.read_pad(chip, 4);
    b.read_page(chip, address);
    let other = b.byte();
    b.commit(chip, CONTROLS + block, &[other]);
    b.read_page(chip, CONTROLS);
}

/// A block whose control byte becomes AAh.
fn falling_block(b: &mut Bench<'_>) {
    let Some(chip) = b.some(DS28EC20) else {
        return noise(b);
    };
    let block = b.free_block(chip);
    let address = 256 * block + b.rng.below(250);
    let any = b.rng.byte();
    b.commit(chip, address, &[0xF0]);
    b.commit(chip, CONTROLS + block, &[0xAA]);
    for byte in [0x3C, any, 0xFF] {
        b.write_pad(chip, address, &[byte]);
        b.read_pad(chip, 6);
        b.copy_right(chip);
        b.read_memory(chip, address, 2);
    }
    b.commit(chip, CONTROLS + block, &[0x00]);
    b.read_page(chip, CONTROLS);
}

/// 0A1Eh with a mark: 55h blocks close, the others do not.
fn block_lock(b: &mut Bench<'_>) {
    let Some(chip) = b.some(DS28EC20) else {
        return noise(b);
    };
    let first = b.rng.below(10);
    let blocks = [first, (first + 3) % 10, (first + 6) % 10];
    b.commit(chip, CONTROLS + blocks[0], &[0x55]);
    b.commit(chip, CONTROLS + blocks[1], &[0xAA]);
    let odd = b.rng.pick(&[0x00, 0xFF, 0x5A, 0x54]);
    b.commit(chip, BLOCK_LOCK, &[odd]);
    let mark = b.rng.pick(&[0x55, 0xAA]);
    for lock in [odd, mark, 0x00] {
        b.commit(chip, BLOCK_LOCK, &[lock]);
        for block in blocks {
            let address = b.in_block(block);
            let data = b.data_for(address);
            b.commit(chip, address, &data);
            b.read_pad(chip, 3);
            b.read_memory(chip, address, 4);
        }
    }
    b.read_page(chip, CONTROLS);
}

/// A control byte that is no mark leaves its block open.
fn odd_control(b: &mut Bench<'_>) {
    let Some(chip) = b.some(DS28EC20) else {
        return noise(b);
    };
    let block = b.free_block(chip);
    let address = b.in_block(block);
    for odd in [0x00, 0x54, 0xAB, 0x5A] {
        b.commit(chip, CONTROLS + block, &[odd]);
        let data = b.bytes(1);
        b.commit(chip, address, &data);
        b.read_memory(chip, address, 2);
    }
    b.read_page(chip, CONTROLS);
}

/// The whole register page, written over and over.
fn register_page(b: &mut Bench<'_>) {
    let Some(chip) = b.some(DS28EC20) else {
        return noise(b);
    };
    let marked = b.rng.chance(50);
    for _ in 0..3 {
        let mut data = b.bytes(PAD);
        if !marked {
            data[PAD - 1] = 0x0F;
        }
        b.write_pad(chip, CONTROLS, &data);
        b.read(3);
        b.read_pad(chip, 38);
        b.copy_right(chip);
        b.read_pad(chip, 4);
        b.read_page(chip, CONTROLS);
    }
}

/// 0A1Fh with a mark closes the register page and nothing else.
fn page_lock(b: &mut Bench<'_>) {
    let Some(chip) = b.some(DS28EC20) else {
        return noise(b);
    };
    let mark = b.rng.pick(&[0x55, 0xAA]);
    let before = b.rng.between(0, 3);
    let mut data = b.bytes(before);
    data.push(mark);
    b.commit(chip, PAGE_LOCK - before, &data);
    b.read_pad(chip, 4);
    b.read_page(chip, CONTROLS);
    for _ in 0..2 {
        let address = CONTROLS + b.rng.below(PAD);
        let data = b.data_for(address);
        b.commit(chip, address, &data);
        b.read_pad(chip, 38);
        b.read_page(chip, CONTROLS);
    }
    b.write_pad(chip, PAGE_LOCK, &[0x00]);
    b.read_pad(chip, 6);
    b.copy_right(chip);
    let block = b.free_block(chip);
    let address = b.in_block(block);
    b.commit(chip, address, &[0x12]);
    b.read_memory(chip, address, 1);
}

/// User bytes are never held, whatever they hold.
fn user_bytes(b: &mut Bench<'_>) {
    let Some(chip) = b.some(DS28EC20) else {
        return noise(b);
    };
    let address = b.rng.pick(&[0x0A0A, 0x0A0A, 0x0A0B, 0x0A1D, 0x0A14]);
    for byte in [0x55, 0x12, 0xAA, 0x34] {
        b.commit(chip, address, &[byte]);
        let control = CONTROLS + b.rng.below(10);
        b.commit(chip, control, &[0x0F]);
        b.read_page(chip, CONTROLS);
    }
}

/// The page that is read only.
fn read_only(b: &mut Bench<'_>) {
    let Some(chip) = b.some(DS28EC20) else {
        return noise(b);
    };
    for address in [READ_ONLY, READ_ONLY + b.rng.below(PAD), LAST] {
        let data = b.data_for(address);
        b.write_pad(chip, address, &data);
        b.read(3);
        b.read_pad(chip, 40);
        b.copy_right(chip);
        b.read_pad(chip, 4);
    }
    b.read_memory(chip, READ_ONLY, 34);
}

/// Addresses above the last.
fn above(b: &mut Bench<'_>) {
    let Some(chip) = b.some(DS28EC20) else {
        return noise(b);
    };
    for address in [b.above(), 0x1000 + b.rng.below(0x0A00), 0x0A40] {
        let data = b.data_for(address);
        b.write_pad(chip, address, &data);
        b.read(3);
        b.read_pad(chip, 40);
        b.copy_right(chip);
        let right = b.right(chip);
        b.copy(chip, [right[0], right[1] & 0x0F, right[2]]);
        b.read_pad(chip, 4);
        b.read_memory(chip, address, 2);
        b.read_memory(chip, address & 0x0FFF, 2);
    }
}

/// An address without data, then a copy of what the scratchpad held before.
fn address_only(b: &mut Bench<'_>) {
    let Some(chip) = b.some(DS28EC20) else {
        return noise(b);
    };
    let first = b.rng.below(10);
    let blocks = [first, (first + 4) % 10, (first + 7) % 10];
    let any = b.rng.between(1, 0xFE) as u8;
    for block in blocks {
        b.commit(chip, 256 * block + 0x20, &[any]);
    }
    b.commit(chip, CONTROLS + blocks[0], &[0x55]);
    b.commit(chip, CONTROLS + blocks[1], &[0xAA]);
    for block in blocks {
        let old: Vec<u8> = (0..PAD).map(|_| b.rng.byte()).collect();
        b.write_pad(chip, 0x0A40, &old);
        b.write_pad(chip, 256 * block + 0x20, &[]);
        b.read_pad(chip, 38);
        b.copy_right(chip);
        b.read_pad(chip, 4);
        b.read_page(chip, 256 * block + 0x20);
    }
    let register = CONTROLS + b.rng.below(PAD);
    let old = b.bytes(PAD);
    b.write_pad(chip, 0x0A40, &old);
    b.write_pad(chip, register, &[]);
    b.copy_right(chip);
    b.read_page(chip, CONTROLS);
}

/// Read Memory inside, over the end, from above, and cut.
fn read_memory(b: &mut Bench<'_>) {
    let Some(chip) = b.some(DS28EC20) else {
        return noise(b);
    };
    let data = b.bytes(4);
    b.commit(chip, 0x00FE, &data[..2]);
    b.commit(chip, 0x0100, &data[2..]);
    b.read_memory(chip, 0x00FC, 8);
    let address = b.rng.below(CONTROLS);
    b.read_memory(chip, address, 5);
    let address = b.rng.between(0x0A1E, LAST);
    b.read_memory(chip, address, LAST + 3 - address);
    let address = b.above();
    b.read_memory(chip, address, 2);
    b.read_pad(chip, 6);
    b.reach(chip);
    b.write(&[0xF0]);
    let bits = b.rng.between(1, 15);
    b.write_bits(&[0xFE, 0x00], bits);
    b.read_pad(chip, 6);
}

/// Function commands that nobody knows here, with an address of a byte that is not FFh.
fn other_functions(b: &mut Bench<'_>) {
    for kind in [DS28EC20, DS2413] {
        let Some(chip) = b.some(kind) else {
            continue;
        };
        let any = b.rng.byte();
        if kind == DS28EC20 {
            b.commit(chip, 0x0000, &[0x5A, 0x00]);
        }
        for command in [0xA5, 0x5A, 0xF5, 0x0F, 0x00, 0xCC, any] {
            b.reach(chip);
            b.write(&[command, 0x00, 0x00]);
            b.read(3);
        }
        b.reach(chip);
        b.speak(chip);
    }
}

/// PIO Access Read while the outside levels move.
fn pio_read(b: &mut Bench<'_>) {
    let Some(chip) = b.some(DS2413) else {
        return noise(b);
    };
    for start in 0..4 {
        b.levels(chip, start);
        b.reach(chip);
        b.write(&[0xF5]);
        for _ in 0..6 {
            let before = b.rng.below(9);
            b.read_bits(before);
            let levels = b.rng.below(4);
            b.levels(chip, levels);
            b.read_bits(8 - before);
        }
        // Between the last bit of a byte and the first of the next, and just before it.
        b.levels(chip, 3 - start);
        b.read_bits(7);
        b.levels(chip, start);
        b.read_bits(1);
        b.levels(chip, 3 - start);
        b.read(2);
    }
}

/// PIO Access Write, pair after pair, right and wrong.
fn pio_write(b: &mut Bench<'_>) {
    let Some(chip) = b.some(DS2413) else {
        return noise(b);
    };
    b.reach(chip);
    b.write(&[0x5A, 0xFE, 0x01]);
    b.read(2);
    for _ in 0..2 {
        b.reach(chip);
        b.write(&[0x5A]);
        for _ in 0..4 {
            let byte = b.rng.byte();
            let start = b.rng.below(4);
            b.levels(chip, start);
            b.write(&[byte, !byte]);
            let bits = b.rng.below(8);
            b.read_bits(bits);
            let levels = b.rng.below(4);
            b.levels(chip, levels);
            b.read_bits(8 - bits);
            if b.rng.chance(50) {
                let levels = b.rng.below(4);
                b.levels(chip, levels);
            }
            b.read(1);
        }
    }
    b.levels(chip, 3);
    b.reach(chip);
    b.write(&[0x5A, 0xFF, 0x00]);
    b.read_bits(7);
    b.levels(chip, 1);
    b.read_bits(1);
    b.levels(chip, 2);
    b.read(1);
    let byte = b.rng.byte();
    let wrong = 1 << b.rng.below(8);
    b.write(&[byte, !byte ^ wrong]);
    b.read(3);
    b.reach(chip);
    b.speak(chip);
    b.reach(chip);
    let byte = byte ^ 3;
    b.write(&[0x5A, byte, byte]);
    b.read(3);
    b.reach(chip);
    b.speak(chip);
    b.levels(chip, 3);
}

/// PIO Access Write cut in the pair, in AAh and in the status.
fn pio_cut(b: &mut Bench<'_>) {
    let Some(chip) = b.some(DS2413) else {
        return noise(b);
    };
    for bits in [b.rng.between(1, 15), 15] {
        let byte = !b.chip(chip).latches;
        b.reach(chip);
        b.write(&[0x5A]);
        b.write_bits(&[byte, !byte], bits);
        b.reach(chip);
        b.speak(chip);
    }
    for bits in [b.rng.below(8), b.rng.between(8, 15), 0] {
        let byte = !b.chip(chip).latches;
        b.reach(chip);
        b.write(&[0x5A, byte, !byte]);
        b.read_bits(bits);
        b.reach(chip);
        b.speak(chip);
    }
}

/// All chips addressed at once by Skip ROM and Read ROM.
fn together(b: &mut Bench<'_>) {
    let data = b.bytes(3);
    if let Some(chip) = b.some(DS28EC20) {
        b.commit(chip, 0x0002, &data);
    }
    if let Some(chip) = b.some(DS2413) {
        b.reach(chip);
        b.write(&[0x5A, 0xFE, 0x01]);
    }
    b.rom(0x33);
    b.read(8);
    b.write(&[0xF5]);
    b.read(3);
    let any = b.rng.byte();
    for bytes in [
        &[0xF5][..],
        &[0xAA],
        &[0xF0, 0x00, 0x00],
        &[0x0F, 0x03, 0x00, 0x11, any],
        &[0xAA],
        &[0x55, 0x03, 0x00, 0x04],
        &[0xAA],
        &[0xF0, 0x00, 0x00],
        &[0x5A, any, !any],
        &[0x5A, any, any],
        &[any],
    ] {
        b.rom(0xCC);
        b.write(bytes);
        b.read(7);
    }
}

/// A whole search by the host.
fn whole_search(b: &mut Bench<'_>) {
    let found = search(b, MOST);
    b.book().saw_if(found.list.len() > 1, Rule::WireSearch);
    b.reset();
}

/// Outside levels of every chip there may be.
fn levels(b: &mut Bench<'_>) {
    for chip in 0..16 {
        let levels = b.rng.below(16);
        b.levels(chip, levels);
        let levels = b.rng.below(4);
        b.levels(chip, levels);
    }
    b.rom(0xCC);
    b.write(&[0xF5]);
    b.read(2);
    for chip in 0..16 {
        b.levels(chip, 3);
    }
}

/// Events that are refused, in the middle of an exchange.
fn refused(b: &mut Bench<'_>) {
    b.put_all(b" \r\n5 9x\n4F3 400\n");
    let Some(chip) = b.any() else {
        return noise(b);
    };
    b.match_rom(chip);
    for _ in 0..40 {
        match b.rng.below(4) {
            0 => b.no_event(),
            1 => b.no_digit(),
            2 => b.stray(),
            _ => b.read_bits(1),
        }
    }
    b.rom(0xA5);
    b.no_event();
    b.no_digit();
    b.speak(chip);
}

/// The host writes zeros while chips send.
fn over_senders(b: &mut Bench<'_>) {
    let Some(chip) = b.any() else {
        return noise(b);
    };
    b.rom(0x33);
    for _ in 0..8 {
        let byte = b.rng.byte();
        b.write(&[byte]);
    }
    b.speak(chip);
    b.reach(chip);
    let command = if b.chip(chip).is(DS28EC20) {
        0xAA
    } else {
        0xF5
    };
    b.write(&[command, 0x00, 0x3C, 0xA5]);
    b.read(3);
    if let Some(chip) = b.some(DS28EC20) {
        b.commit(chip, 0x0000, &[0x77]);
        b.write(&[0x35]);
        b.read(1);
    }
}

/// Slots without a plan.
fn noise(b: &mut Bench<'_>) {
    for _ in 0..b.rng.between(20, 200) {
        match b.rng.below(100) {
            0..=2 => {
                b.reset();
            }
            3 => b.stray(),
            4 if b.rng.chance(10) => b.power_on(),
            5 | 6 => {
                let command = b
                    .rng
                    .pick(&[0xCC, 0xA5, 0xF0, 0x55, 0x0F, 0xAA, 0x33, 0x5A, 0xF5]);
                b.write(&[command]);
            }
            _ => {
                let bit = b.rng.below(2) as u8;
                b.slot(bit);
            }
        }
    }
}

/// A random run of short exchanges.
pub fn walk(b: &mut Bench<'_>) {
    for _ in 0..b.rng.between(3, 9) {
        let Some(chip) = b.any() else {
            return noise(b);
        };
        if b.rng.chance(3) {
            noise(b);
        } else if b.rng.chance(1) {
            b.power_on();
        } else if b.chip(chip).is(DS28EC20) {
            memory_exchange(b, chip);
        } else {
            pio_exchange(b, chip);
        }
    }
    if let Some(chip) = b.some(DS28EC20) {
        b.read_pad(chip, 6);
        b.read_page(chip, CONTROLS);
    }
}

/// One exchange with a DS28EC20.
fn memory_exchange(b: &mut Bench<'_>, chip: usize) {
    let near = usize::from(b.chip(chip).t).min(LAST);
    let address = match b.rng.below(4) {
        0 => near,
        1 => b.protected(chip),
        _ => b.address(),
    };
    match b.rng.below(21) {
        0..=3 => {
            let data = b.data_for(address);
            b.write_pad(chip, address, &data);
            let bits = b.rng.pick(&[0, 0, 0, 16, 19]);
            b.read_bits(bits);
        }
        4 | 5 => {
            let bytes = b.rng.below(42);
            b.read_pad(chip, bytes);
        }
        6..=8 => {
            let bytes = b.authorization(chip);
            b.copy(chip, bytes);
        }
        9..=14 => {
            let data = b.data_for(address);
            b.commit(chip, address, &data);
            b.read_memory(chip, address & !3, 4);
        }
        15 => {
            b.write_pad(chip, address, &[]);
            b.copy_right(chip);
            b.read_memory(chip, address & !3, 4);
        }
        16 | 17 => {
            let bytes = b.rng.below(12);
            b.read_memory(chip, address, bytes);
        }
        18 => b.read_page(chip, near),
        19 => {
            let bits = b.rng.below(16);
            b.short_address(chip, bits);
            b.read_pad(chip, 3);
        }
        _ => {
            let command = b.rng.byte();
            b.reach(chip);
            b.write(&[command]);
            b.read(3);
        }
    }
}

/// One exchange with a DS2413.
fn pio_exchange(b: &mut Bench<'_>, chip: usize) {
    b.reach(chip);
    match b.rng.below(10) {
        0..=3 => {
            b.write(&[0xF5]);
            for _ in 0..b.rng.between(1, 4) {
                let bits = b.rng.below(9);
                b.read_bits(bits);
                b.stray();
                b.read_bits(8 - bits);
            }
        }
        4..=8 => {
            b.write(&[0x5A]);
            for _ in 0..b.rng.between(1, 4) {
                let byte = b.rng.byte();
                let flip = if b.rng.chance(10) {
                    1 << b.rng.below(8)
                } else {
                    0
                };
                b.write(&[byte, !byte ^ flip]);
                let bits = b.rng.below(17);
                b.read_bits(bits);
                b.stray();
                b.read_bits(16 - bits);
            }
        }
        _ => {
            let command = b.rng.byte();
            b.write(&[command]);
            b.read(2);
        }
    }
}
