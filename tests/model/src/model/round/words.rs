//! The round program: its words and what it says.

use super::{codes, memories, round, Page, Round};
use crate::model::book::{Book, Slip};
use crate::model::card::read_card;
use crate::model::chip::{Chip, DS28EC20};
use crate::model::crc::{check_of, Check};
use crate::model::line::{Line, MOST};
use crate::model::memory::IMAGE;
pub use crate::model::setpoint::words::Said;

/// The line for words that the program does not know.
const USAGE: &str = "usage: round [--images FILE] [--places N] [--pages BYTES]\n";
/// The options.
pub const OPTIONS: [&[u8]; 3] = [b"--images", b"--places", b"--pages"];
/// The most bytes of a page buffer that may be given.
pub const BUFFER_MOST: u128 = 1024;

/// What the program is asked for.
#[derive(Clone, PartialEq, Eq, Debug)]
pub struct Asked {
    /// The name of the file of images.
    pub images: Option<Vec<u8>>,
    /// The places of the list.
    pub places: usize,
    /// The bytes of the page buffer.
    pub buffer: Option<usize>,
}

/// An option as the program knows it, but for slips that take others for it.
fn option_of(word: &[u8], book: &Book) -> Option<usize> {
    let known = |word: &[u8]| OPTIONS.iter().position(|option| *option == word);
    let starts = |option: &&[u8]| word.len() > 2 && option.starts_with(word);
    match word {
        _ if book.slips(Slip::RoundCapitals) => known(&word.to_ascii_lowercase()),
        _ if book.slips(Slip::RoundWordPart) => OPTIONS.iter().position(starts),
        _ if book.slips(Slip::RoundWordBegun) => {
            OPTIONS.iter().position(|option| word.starts_with(option))
        }
        [b'-', rest @ ..] if book.slips(Slip::RoundOneDash) && !rest.starts_with(b"-") => {
            known(&[b"-", word].concat())
        }
        _ if book.slips(Slip::RoundNoDash) && !word.starts_with(b"-") => {
            known(&[b"--", word].concat())
        }
        _ => known(word),
    }
}

/// The words with some of them changed by slips.
fn slipped_words(words: &[Vec<u8>], book: &Book) -> Vec<Vec<u8>> {
    let mut all = Vec::new();
    for (place, word) in words.iter().enumerate() {
        let equals = word.iter().position(|sign| *sign == b'=');
        let first = equals.map(|at| &word[..at]);
        match (word, equals) {
            (_, Some(at))
                if book.slips(Slip::RoundEquals)
                    && OPTIONS.contains(&first.unwrap_or_default()) =>
            {
                all.extend([word[..at].to_vec(), word[at + 1..].to_vec()]);
            }
            _ if book.slips(Slip::RoundEmptyPassed) && word.is_empty() => {}
            _ if book.slips(Slip::RoundTwoDashes) && word == b"--" => {}
            _ if book.slips(Slip::RoundNameAlone) && words.len() == 1 => {
                all.extend([OPTIONS[0].to_vec(), word.clone()]);
            }
            _ if book.slips(Slip::RoundLastPassed)
                && place + 1 == words.len()
                && words.len() % 2 == 1 => {}
            _ => all.push(word.clone()),
        }
    }
    all
}

/// What the words ask for, or nothing where they are not the program's.
pub fn asked_of(words: &[Vec<u8>], book: &Book) -> Option<Asked> {
    let mut values: [Option<Vec<u8>>; 3] = [None, None, None];
    let words = slipped_words(words, book);
    let mut words = words.iter();
    let mut last = 0;
    while let Some(word) = words.next() {
        let Some(option) = option_of(word, book) else {
            if book.slips(Slip::RoundOtherPassed) {
                continue;
            }
            return None;
        };
        if book.slips(Slip::RoundInOrder) && option < last {
            return None;
        }
        last = option;
        let value = words.next()?;
        let again = values[option].is_some();
        let flag = value.starts_with(b"-");
        match value {
            _ if again && book.slips(Slip::RoundFirstKept) => continue,
            _ if again && book.slips(Slip::RoundAgain) => {}
            _ if again
                && book.slips(Slip::RoundSameAgain)
                && values[option].as_ref() == Some(value) => {}
            _ if again => return None,
            _ if option == 0 && flag && book.slips(Slip::RoundFlagNames) => return None,
            _ => {}
        }
        values[option] = Some(value.clone());
    }
    let [images, places, buffer] = values;
    let places = match places {
        Some(value) => places_of(&value, book)?,
        None => MOST,
    };
    let buffer = match buffer {
        Some(value) => buffer_of(&value, book)?,
        None => None,
    };
    let images = match images {
        Some(_) if book.slips(Slip::RoundFilePassed) => None,
        Some(name) if name.is_empty() && book.slips(Slip::RoundNameEmpty) => None,
        images => images,
    };
    Some(Asked {
        images,
        places,
        buffer,
    })
}

/// A number in decimal digits, of any length, or nothing where it is none; past the type its greatest value.
pub fn number_of(value: &[u8], book: &Book) -> Option<u128> {
    let value = respelt(value, book);
    if value.is_empty() || !value.iter().all(u8::is_ascii_digit) {
        return None;
    }
    let zeros = value.len() > 1 && value[0] == b'0';
    let base = match () {
        () if zeros && book.slips(Slip::RoundZerosNone) => return None,
        () if value.len() > 20 && book.slips(Slip::RoundDigits20) => return None,
        () if value.len() > 4096 && book.slips(Slip::RoundDigits4096) => return None,
        () if zeros && book.slips(Slip::RoundOctal) => 8,
        () => 10,
    };
    let digits = || value.iter().map(|digit| u128::from(digit - b'0'));
    let low = digits().fold(0u128, |all, digit| {
        all.wrapping_mul(base).wrapping_add(digit)
    });
    Some(match () {
        () if book.slips(Slip::RoundWrap8) => low & 0xFF,
        () if book.slips(Slip::RoundWrap16) => low & 0xFFFF,
        () if book.slips(Slip::RoundWrap32) => low & 0xFFFF_FFFF,
        () if book.slips(Slip::RoundWrap64) => low & u128::from(u64::MAX),
        () if book.slips(Slip::RoundWrap128) => low,
        () => digits().fold(0u128, |all, digit| {
            all.saturating_mul(base).saturating_add(digit)
        }),
    })
}

/// A number as it is spelt, but for slips that take other spellings.
fn respelt(word: &[u8], book: &Book) -> Vec<u8> {
    let digits = word.iter().take_while(|digit| digit.is_ascii_digit());
    let behind = digits.count();
    let kept = match word {
        b"" if book.slips(Slip::RoundEmptyZero) => b"0",
        [b'+', rest @ ..] if book.slips(Slip::RoundPlusTaken) => rest,
        [b'-', rest @ ..] if book.slips(Slip::RoundMinusTaken) => rest,
        _ if book.slips(Slip::RoundBlankTaken) => word.trim_ascii(),
        _ if behind > 0 && book.slips(Slip::RoundBehindTaken) => &word[..behind],
        [b'0', b'x', rest @ ..] if book.slips(Slip::RoundHexTaken) => {
            let digits = std::str::from_utf8(rest).unwrap_or_default();
            let number = u64::from_str_radix(digits, 16).ok();
            return number.map_or(word.to_vec(), |number| number.to_string().into_bytes());
        }
        _ if book.slips(Slip::RoundWideTaken) => {
            let text = String::from_utf8_lossy(word);
            let narrow = |sign: char| match sign as u32 {
                // Arabic-Indic and full-width digits.
                wide @ 0x0660..=0x0669 => (b'0' + (wide - 0x0660) as u8) as char,
                wide @ 0xFF10..=0xFF19 => (b'0' + (wide - 0xFF10) as u8) as char,
                _ => sign,
            };
            return text.chars().map(narrow).collect::<String>().into_bytes();
        }
        _ => word,
    };
    kept.to_vec()
}

/// The places that a value gives: more than 16 count as 16.
fn places_of(value: &[u8], book: &Book) -> Option<usize> {
    let number = match number_of(value, book) {
        None if book.slips(Slip::RoundPlacesOther) => return Some(MOST),
        number => number?,
    };
    let over = number > MOST as u128;
    Some(match number {
        _ if over && book.slips(Slip::RoundOverUsage) => return None,
        _ if over && book.slips(Slip::RoundOverNone) => 0,
        _ if over && book.slips(Slip::RoundOverFifteen) => MOST - 1,
        0 if book.slips(Slip::RoundZeroUsage) => return None,
        0 if book.slips(Slip::RoundZeroAll) => MOST,
        0 if book.slips(Slip::RoundZeroOne) => 1,
        _ if book.slips(Slip::RoundPlacesPassed) => MOST,
        _ if book.slips(Slip::RoundPlacesNibble) => number as usize % MOST,
        _ if book.slips(Slip::RoundPlacesLess) => (number.min(16) as usize).saturating_sub(1),
        _ if book.slips(Slip::RoundPlacesMore) => number.min(16) as usize + 1,
        _ if book.slips(Slip::RoundPlacesDigit) => usize::from(value[value.len() - 1] - b'0'),
        _ => number.min(MOST as u128) as usize,
    })
}

/// The bytes of the page buffer that a value gives; more than 1,024 are not the program's.
fn buffer_of(value: &[u8], book: &Book) -> Option<Option<usize>> {
    let number = match number_of(value, book) {
        None if book.slips(Slip::RoundBufferOther) => return Some(None),
        number => number?,
    };
    let most = match () {
        () if book.slips(Slip::RoundBuffer1025) => 1025,
        () if book.slips(Slip::RoundBuffer1023) => 1023,
        () if book.slips(Slip::RoundBuffer512) => 512,
        () if book.slips(Slip::RoundBufferAny) => u128::MAX,
        () => BUFFER_MOST,
    };
    let buffer = number.min(u128::from(u32::MAX)) as usize;
    match number {
        _ if number > most && book.slips(Slip::RoundBufferCapped) => Some(Some(1024)),
        _ if number > most => None,
        0 if book.slips(Slip::RoundBufferZero) => Some(None),
        _ if book.slips(Slip::RoundBufferPassed) => Some(None),
        _ if book.slips(Slip::RoundBufferInPages) => Some(Some(32 * buffer)),
        _ => Some(Some(buffer)),
    }
}

/// The images that the memories of a table get from a file, but for slips that take another size for the right one.
fn images_from(file: &[u8], table: &[Chip], book: &Book) -> Vec<u8> {
    let asked = IMAGE * memories(table);
    let mut images = file.to_vec();
    let size = images.len();
    let resized = size > asked && book.slips(Slip::RoundFileCut)
        || size < asked && book.slips(Slip::RoundFileFilled)
        || size == asked + 1 && book.slips(Slip::RoundFileOne)
        || size == asked + 1 && file.ends_with(b"\n") && book.slips(Slip::RoundFileLine)
        || size == 0 && book.slips(Slip::RoundFileEmpty)
        || size > asked && size % 65_536 == asked && book.slips(Slip::RoundFileTwo)
        || size > IMAGE * MOST && memories(table) == MOST && book.slips(Slip::RoundFileMost)
        || size >= asked && size / IMAGE == asked / IMAGE && book.slips(Slip::RoundFilePart)
        || size > asked && size % IMAGE == 0 && book.slips(Slip::RoundFileMore)
        || size == IMAGE * MOST && book.slips(Slip::RoundFileSixteen)
        || size == IMAGE * table.len() && book.slips(Slip::RoundFileChips)
        || size == IMAGE * super::borne(table).len() && book.slips(Slip::RoundFileCodes)
        || size == IMAGE && book.slips(Slip::RoundFileSame)
        || asked == 0 && book.slips(Slip::RoundFileUnneeded);
    if resized {
        images.resize(asked, 0xFF);
    }
    // The images of a file of the right size in another place.
    if images.len() == asked {
        let parts = images.chunks(IMAGE);
        let rows = table.iter().filter(|chip| chip.is(DS28EC20));
        let mut own: Vec<(u64, &[u8])> = rows.map(|chip| chip.code).zip(parts).collect();
        match () {
            () if book.slips(Slip::RoundImagesBack) => own.reverse(),
            () if book.slips(Slip::RoundImagesList) => {
                own.sort_by_key(|(code, _)| code.reverse_bits());
            }
            () if book.slips(Slip::RoundImagesFirst) && !own.is_empty() => {
                own = vec![own[0]; own.len()];
            }
            () => {}
        }
        let dealt: Vec<&[u8]> = own.into_iter().map(|(_, image)| image).collect();
        images = if book.slips(Slip::RoundImagesPlace) {
            by_place(&dealt, table)
        } else if book.slips(Slip::RoundImagesOnes) {
            vec![0xFF; asked]
        } else {
            dealt.concat()
        };
    }
    images
}

/// The images dealt by the place of a memory among all chips, as a slip has it.
fn by_place(dealt: &[&[u8]], table: &[Chip]) -> Vec<u8> {
    let ones = [0xFF; IMAGE];
    let places = table.iter().enumerate();
    let memories = places.filter(|(_, chip)| chip.is(DS28EC20));
    let images = memories.map(|(place, _)| dealt.get(place).copied().unwrap_or(&ones));
    images.collect::<Vec<_>>().concat()
}

/// All that the program says to what it is asked for, the bytes of its file and its card.
pub fn said(asked: &Asked, file: Option<&[u8]>, card: &[u8], book: &mut Book) -> Said {
    let card = if book.slips(Slip::RoundCardFull) {
        &card[..card.len().min(192)]
    } else {
        card
    };
    let table = match read_card(card, MOST, book) {
        Ok(table) => table,
        Err((refusal, offset)) => {
            let size = file.is_some_and(|file| file.len() % IMAGE != 0);
            if size && book.slips(Slip::RoundFileSooner) {
                return refused_by(&Round::default(), 5, book);
            }
            return refused_card(refusal, offset, book);
        }
    };
    let mut line = Line::set_up(table, book);
    let asked_images = line.images.len();
    if book.slips(Slip::RoundImagesZero) {
        line.images.fill(0);
    }
    if let Some(file) = file {
        line.images = images_from(file, &line.table, book);
    }
    if line.images.len() != asked_images && book.slips(Slip::RoundFileFour) {
        line.images.resize(asked_images, 0xFF);
        let done = round(&mut line, asked.places, asked.buffer, book);
        if done.refusal == Some(4) {
            return refused_by(&done, 4, book);
        }
        line.images.push(0);
    }
    let chips = line.table.len();
    let done = round(&mut line, asked.places, asked.buffer, book);
    match done.refusal {
        Some(refusal) => refused_by(&done, refusal, book),
        None => {
            let distinct = codes(&line.table).len();
            told(printed(&done, chips.max(distinct), book), book)
        }
    }
}

/// All that the program says to its words, the bytes of the file that they name and its card.
pub fn round_said(words: &[Vec<u8>], file: Option<&[u8]>, card: &[u8], book: &mut Book) -> Said {
    match asked_of(words, book) {
        None => usage(book),
        Some(asked) => said(&asked, file.filter(|_| asked.images.is_some()), card, book),
    }
}

/// The usage line.
pub fn usage(book: &Book) -> Said {
    let line = USAGE.as_bytes().to_vec();
    let (printed, errors) = match line {
        _ if book.slips(Slip::RoundUsageNone) => (Vec::new(), Vec::new()),
        _ if book.slips(Slip::RoundUsageOut) => (line, Vec::new()),
        _ if book.slips(Slip::RoundUsageLines) => (Vec::new(), USAGE.repeat(2).into_bytes()),
        _ if book.slips(Slip::RoundUsageZero) => (b"0 codes 0 resets 0 slots\n".to_vec(), line),
        _ => (Vec::new(), line),
    };
    Said { printed, errors }
}

/// What standard output has, and nothing on standard error.
fn told(printed: String, book: &Book) -> Said {
    let printed = match printed {
        text if book.slips(Slip::RoundCrlf) => text.replace('\n', "\r\n"),
        text if book.slips(Slip::RoundLastOpen) => text.trim_end().to_string(),
        text if book.slips(Slip::RoundLastEmpty) => text + "\n",
        text => text,
    };
    let errors = match book.slips(Slip::RoundTalks) {
        true => b"round: done\n".to_vec(),
        false => Vec::new(),
    };
    Said {
        printed: printed.into_bytes(),
        errors,
    }
}

/// The line of a refused card.
fn refused_card(refusal: u8, offset: usize, book: &Book) -> Said {
    let counts = "0 codes 0 resets 0 slots\n";
    told(
        match refusal {
            _ if book.slips(Slip::RoundCardCounts) => {
                format!("{counts}refused {refusal} at {offset}\n")
            }
            _ if book.slips(Slip::RoundCardPlain) => format!("refused {refusal}\n"),
            _ if book.slips(Slip::RoundCardNext) => {
                format!("refused {refusal} at {}\n", offset + 2)
            }
            _ if book.slips(Slip::RoundCardEmpty) => "0 codes 1 resets 0 slots\n".into(),
            _ => format!("refused {refusal} at {offset}\n"),
        },
        book,
    )
}

/// What a refusal by 4 or 5 comes to.
fn refused_by(done: &Round, refusal: u8, book: &Book) -> Said {
    let line = match refusal {
        _ if book.slips(Slip::RoundRefusedAt) => format!("refused {refusal} at 0\n"),
        _ if book.slips(Slip::RoundRefusedNone) => String::new(),
        5 if book.slips(Slip::RoundFiveEight) => "refused 8\n".into(),
        4 if book.slips(Slip::RoundFourFive) => "refused 5\n".into(),
        _ => format!("refused {refusal}\n"),
    };
    let before = match refusal {
        _ if book.slips(Slip::RoundRefusedAlone) => String::new(),
        5 if book.slips(Slip::RoundFiveAlone) => String::new(),
        5 if book.slips(Slip::RoundFiveReset) => "0 codes 1 resets 0 slots\n".into(),
        _ => printed(done, done.list.len(), book),
    };
    if book.slips(Slip::RoundRefusedFirst) {
        return told(line + &before, book);
    }
    let mut said = told(before + &line, book);
    if book.slips(Slip::RoundRefusedError) {
        said.printed.truncate(said.printed.len() - line.len());
        said.errors = line.into_bytes();
    } else if book.slips(Slip::RoundRefusedTwice) {
        said.errors = line.into_bytes();
    }
    said
}

/// The word for the check of a code.
fn word_of(code: u64, book: &Book) -> &'static str {
    match check_of(code) {
        _ if book.slips(Slip::RoundNoWord) => "",
        Check::Good => "ok",
        Check::Bad => "no",
        Check::Zeros if book.slips(Slip::RoundZeroOk) => "ok",
        Check::Zeros if book.slips(Slip::RoundZeroNo) => "no",
        Check::Zeros => "zero",
    }
}

/// The line of a code.
fn code_line(code: u64, book: &Book) -> String {
    let word = word_of(code, book);
    match code {
        _ if book.slips(Slip::RoundCodeSmall) => format!("{code:016x} {word}\n"),
        _ if book.slips(Slip::RoundCodeShort) => format!("{code:X} {word}\n"),
        _ if book.slips(Slip::RoundCodeBytes) => format!("{:016X} {word}\n", code.swap_bytes()),
        _ => format!("{code:016X} {word}\n"),
    }
}

/// The line of a page.
fn page_line(page: &Page, book: &Book) -> String {
    let digits = |byte: &u8| match byte {
        _ if book.slips(Slip::RoundPageSmall) => format!("{byte:02x}"),
        _ if book.slips(Slip::RoundPageDigits) => format!("{byte:X}"),
        _ if book.slips(Slip::RoundPageTurned) => format!("{:02X}", byte.rotate_left(4)),
        _ => format!("{byte:02X}"),
    };
    let all: Vec<String> = page.iter().map(digits).collect();
    match () {
        () if book.slips(Slip::RoundPageSpaces) => all.join(" ") + "\n",
        () if book.slips(Slip::RoundPageRows) => {
            format!("{}\n{}\n", all[..16].concat(), all[16..].concat())
        }
        () if book.slips(Slip::RoundPageBack) => {
            all.into_iter().rev().collect::<Vec<_>>().concat() + "\n"
        }
        () if book.slips(Slip::RoundPageLess) => all[..31].concat() + "\n",
        () if book.slips(Slip::RoundPageMore) => all.concat() + "FF\n",
        () if book.slips(Slip::RoundPageBlank) && *page == [0xFF; 32] => String::new(),
        () if book.slips(Slip::RoundPageRun) => all.concat(),
        () => all.concat() + "\n",
    }
}

/// The lines of the codes, of the pages and of the counts.
fn printed(done: &Round, chips: usize, book: &Book) -> String {
    let lines = done.list.iter().map(|code| code_line(*code, book));
    let lines: Vec<String> = lines.collect();
    let pages = done.pages.iter().map(|page| page_line(page, book));
    let pages: Vec<String> = pages.collect();
    let count = match done.list.len() {
        _ if book.slips(Slip::RoundCountChips) => chips,
        _ if book.slips(Slip::RoundCountPages) => done.pages.len(),
        count => count,
    };
    let Round { resets, slots, .. } = done;
    let counts = match count {
        1 if book.slips(Slip::RoundOneCode) => format!("1 code {resets} resets {slots} slots\n"),
        _ if *resets == 1 && book.slips(Slip::RoundOneReset) => {
            format!("{count} codes 1 reset {slots} slots\n")
        }
        _ if book.slips(Slip::RoundCountsList) => format!("{count} codes {slots} slots\n"),
        _ if book.slips(Slip::RoundCountsSum) => {
            format!("{count} codes {} events\n", resets + slots)
        }
        _ if book.slips(Slip::RoundCountsTime) => {
            let time = 960 * resets + 61 * slots;
            format!("{count} codes {resets} resets {slots} slots {time} us\n")
        }
        _ if book.slips(Slip::RoundCountsComma) && *slots >= 1000 => {
            let [thousands, rest] = [slots / 1000, slots % 1000];
            format!("{count} codes {resets} resets {thousands},{rest:03} slots\n")
        }
        _ if book.slips(Slip::RoundCountsPages) => {
            let pages = done.pages.len();
            format!("{count} codes {pages} pages {resets} resets {slots} slots\n")
        }
        _ => format!("{count} codes {resets} resets {slots} slots\n"),
    };
    match () {
        () if book.slips(Slip::RoundPagesFirst) => pages.concat() + &lines.concat() + &counts,
        () if book.slips(Slip::RoundCountsFirst) => counts + &lines.concat() + &pages.concat(),
        () if book.slips(Slip::RoundCountsBetween) => lines.concat() + &counts + &pages.concat(),
        () if book.slips(Slip::RoundBetween) => {
            let longer = lines.len().max(pages.len());
            let part = |of: &[String], at: usize| of.get(at).cloned().unwrap_or_default();
            let rows = (0..longer).map(|at| part(&lines, at) + &part(&pages, at));
            rows.collect::<String>() + &counts
        }
        () if book.slips(Slip::RoundNoCodes) => pages.concat() + &counts,
        () if book.slips(Slip::RoundNoPages) => lines.concat() + &counts,
        () => lines.concat() + &pages.concat() + &counts,
    }
}
