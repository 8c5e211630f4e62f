//! An independent model of the line, its chips, the card, the recording, the search, the round, the
//! setpoint record, Intel HEX files and the programs, written from the papers' words.

pub mod book;
pub mod card;
pub mod chip;
pub mod crc;
pub mod figure4;
pub mod hexfile;
pub mod lent;
pub mod line;
pub mod memory;
pub mod programs;
pub mod record;
pub mod recording;
pub mod round;
pub mod search;
pub mod setpoint;
