//! The calls that tests/c/driver.c knows: as bytes, and as the model answers them.

use std::io::{self, Read, Write};

use crate::model::book::Book;
use crate::model::lent::{card, memories_asked, table_size, Lent, Run};
use crate::model::memory::{IMAGE, PAD};
use crate::report::hex;

/// Most bytes of a run's bits that are shown.
const SHOWN: usize = 64;

/// A call. A piece of memory is its bytes.
#[derive(Clone)]
pub enum Call {
    TableSize(u64),
    Card { card: Vec<u8>, table: Vec<u8> },
    Lend(Lent),
    Event { event: u32, chip: u32, levels: u32 },
    Run(Run),
    Search { list: Vec<u64> },
    Images,
}

/// Adds a piece: its size and its bytes.
fn add_piece(bytes: &mut Vec<u8>, piece: &[u8]) {
    bytes.extend((piece.len() as u32).to_le_bytes());
    bytes.extend(piece);
}

/// A list of codes as bytes.
fn list_bytes(list: &[u64]) -> Vec<u8> {
    list.iter().flat_map(|code| code.to_le_bytes()).collect()
}

/// The FNV-1a sum of bytes.
fn sum(bytes: &[u8]) -> u64 {
    let next = |sum: u64, byte: &u8| (sum ^ u64::from(*byte)).wrapping_mul(0x100_0000_01B3);
    bytes.iter().fold(0xCBF2_9CE4_8422_2325, next)
}

/// Adds the line: table, scratchpads, sum of the images.
fn add_line(bytes: &mut Vec<u8>, lent: &Lent) {
    add_piece(bytes, &lent.table);
    add_piece(bytes, &lent.pads);
    bytes.extend(sum(&lent.images).to_le_bytes());
}

impl Call {
    /// The call as the driver reads it.
    pub fn bytes(&self) -> Vec<u8> {
        let mut bytes = Vec::new();
        match self {
            Call::TableSize(chips) => {
                bytes.push(b'S');
                bytes.extend(chips.to_le_bytes());
            }
            Call::Card { card, table } => {
                bytes.push(b'C');
                add_piece(&mut bytes, card);
                add_piece(&mut bytes, table);
            }
            Call::Lend(lent) => {
                bytes.push(b'L');
                add_piece(&mut bytes, &lent.table);
                add_piece(&mut bytes, &lent.images);
                add_piece(&mut bytes, &lent.pads);
            }
            Call::Event {
                event,
                chip,
                levels,
            } => {
                bytes.push(b'E');
                for number in [event, chip, levels] {
                    bytes.extend(number.to_le_bytes());
                }
            }
            Call::Run(run) => {
                bytes.push(b'R');
                bytes.extend(run.slots.to_le_bytes());
                add_piece(&mut bytes, &run.bits);
                add_piece(&mut bytes, &run.answers);
            }
            Call::Search { list } => {
                bytes.push(b'F');
                add_piece(&mut bytes, &list_bytes(list));
            }
            Call::Images => bytes.push(b'M'),
        }
        bytes
    }

    /// What the model answers, as the driver writes it; the line changes as the call says.
    pub fn answer(&self, lent: &mut Lent, book: &mut Book) -> Vec<u8> {
        let mut bytes = Vec::new();
        match self {
            Call::TableSize(chips) => bytes.extend(table_size(*chips).to_le_bytes()),
            Call::Card { card: given, table } => {
                let mut table = table.clone();
                let (answer, offset) = card(given, &mut table, book);
                bytes.extend(answer.to_le_bytes());
                bytes.extend(offset.to_le_bytes());
                add_piece(&mut bytes, &table);
                lent.table = table;
            }
            Call::Lend(line) => {
                *lent = line.clone();
                let asked = memories_asked(&lent.table);
                for size in [IMAGE, PAD] {
                    bytes.extend(((asked * size) as u64).to_le_bytes());
                }
            }
            Call::Event {
                event,
                chip,
                levels,
            } => {
                let answer = lent.event(*event, *chip, *levels, book);
                bytes.extend(answer.to_le_bytes());
                add_line(&mut bytes, lent);
            }
            Call::Run(run) => {
                let mut run = run.clone();
                let answer = lent.run(&mut run, book);
                bytes.extend(answer.to_le_bytes());
                add_piece(&mut bytes, &run.answers);
                add_line(&mut bytes, lent);
            }
            Call::Search { list } => {
                let mut list = list.clone();
                let searched = lent.search(&mut list, book);
                bytes.extend(searched.answer.to_le_bytes());
                bytes.extend(searched.resets.to_le_bytes());
                bytes.extend(searched.slots.to_le_bytes());
                add_piece(&mut bytes, &list_bytes(&list));
                add_line(&mut bytes, lent);
            }
            Call::Images => add_piece(&mut bytes, &lent.images),
        }
        bytes
    }

    /// What the answer's first four bytes say: a bit, a count, or minus a refusal.
    pub fn shown(&self) -> String {
        match self {
            Call::TableSize(chips) => format!("tk_table_size({chips})"),
            Call::Card { card, table } => format!(
                "tk_card, {} bytes of card, {} bytes of table",
                card.len(),
                table.len()
            ),
            Call::Lend(lent) => format!(
                "tk_images_size, tk_pads_size, {} bytes of table",
                lent.table.len()
            ),
            Call::Event {
                event,
                chip,
                levels,
            } => format!("tk_event {event}, chip {chip}, levels {levels}"),
            Call::Run(run) => format!(
                "tk_slots, {} slots, {} bytes of bits from {} on, {} bytes of answers",
                run.slots,
                run.bits.len(),
                hex(&run.bits[..run.bits.len().min(SHOWN)]),
                run.answers.len()
            ),
            Call::Search { list } => format!("tk_search, {} places", list.len()),
            Call::Images => "the images".into(),
        }
    }
}

/// Reads a number of so many bytes.
fn number(input: &mut impl Read, size: usize) -> io::Result<u64> {
    let mut bytes = [0; 8];
    input.read_exact(&mut bytes[..size])?;
    Ok(u64::from_le_bytes(bytes))
}

/// Reads a piece.
fn piece(input: &mut impl Read) -> io::Result<Vec<u8>> {
    let size = number(input, 4)?;
    let mut bytes = vec![0; size as usize];
    input.read_exact(&mut bytes)?;
    Ok(bytes)
}

/// Reads the call after its letter.
fn read_call(letter: u8, input: &mut impl Read) -> io::Result<Call> {
    Ok(match letter {
        b'S' => Call::TableSize(number(input, 8)?),
        b'C' => Call::Card {
            card: piece(input)?,
            table: piece(input)?,
        },
        b'L' => Call::Lend(Lent {
            table: piece(input)?,
            images: piece(input)?,
            pads: piece(input)?,
        }),
        b'E' => Call::Event {
            event: number(input, 4)? as u32,
            chip: number(input, 4)? as u32,
            levels: number(input, 4)? as u32,
        },
        b'R' => Call::Run(Run {
            slots: number(input, 8)?,
            bits: piece(input)?,
            answers: piece(input)?,
        }),
        b'F' => {
            let bytes = piece(input)?;
            let codes = bytes.chunks_exact(8);
            let code = |code: &[u8]| u64::from_le_bytes(code.try_into().expect("eight bytes"));
            Call::Search {
                list: codes.map(code).collect(),
            }
        }
        b'M' => Call::Images,
        _ => return Err(io::Error::other("no such call")),
    })
}

/// The model as the driver.
pub fn serve(book: &mut Book) -> io::Result<()> {
    let mut input = io::BufReader::new(io::stdin().lock());
    let mut output = io::stdout().lock();
    let mut lent = Lent::default();
    let mut letter = [0];
    while input.read(&mut letter)? == 1 {
        let call = read_call(letter[0], &mut input)?;
        output.write_all(&call.answer(&mut lent, book))?;
        output.flush()?;
    }
    Ok(())
}
