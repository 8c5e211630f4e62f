//! Seeded cards, event scripts, recordings, pages, Intel HEX files and rounds.

pub mod bench;
pub mod cards;
pub mod faults;
pub mod heads;
pub mod hexfaults;
pub mod hexfiles;
pub mod pages;
pub mod recordings;
pub mod rng;
pub mod rounds;
pub mod stories;
pub mod values;
pub mod words;
