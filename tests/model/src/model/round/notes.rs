//! What is met in a round: the classes that a run must come to.

use super::words::{asked_of, number_of, Said, BUFFER_MOST, OPTIONS};
use super::{borne, codes, images_of, is_borne, memories, pages_asked, Page, PAGE};
use crate::model::book::{Book, Rule};
use crate::model::card::read_card;
use crate::model::chip::{Chip, DS2413, DS28EC20};
use crate::model::crc::{check_of, Check};
use crate::model::line::{Line, MOST};
use crate::model::memory::IMAGE;

/// A number, or the zeros before it, is long from so many digits on.
const LONG: usize = 100_000;

/// A line of so many chips.
const CHIPS: [Rule; 17] = [
    Rule::RoundChips0,
    Rule::RoundChips1,
    Rule::RoundChips2,
    Rule::RoundChips3,
    Rule::RoundChips4,
    Rule::RoundChips5,
    Rule::RoundChips6,
    Rule::RoundChips7,
    Rule::RoundChips8,
    Rule::RoundChips9,
    Rule::RoundChips10,
    Rule::RoundChips11,
    Rule::RoundChips12,
    Rule::RoundChips13,
    Rule::RoundChips14,
    Rule::RoundChips15,
    Rule::RoundChips16,
];
/// So many pages.
const READ: [Rule; 17] = [
    Rule::RoundRead0,
    Rule::RoundRead1,
    Rule::RoundRead2,
    Rule::RoundRead3,
    Rule::RoundRead4,
    Rule::RoundRead5,
    Rule::RoundRead6,
    Rule::RoundRead7,
    Rule::RoundRead8,
    Rule::RoundRead9,
    Rule::RoundRead10,
    Rule::RoundRead11,
    Rule::RoundRead12,
    Rule::RoundRead13,
    Rule::RoundRead14,
    Rule::RoundRead15,
    Rule::RoundRead16,
];
/// So many places given.
const PLACES: [Rule; 17] = [
    Rule::RoundPlaces0,
    Rule::RoundPlaces1,
    Rule::RoundPlaces2,
    Rule::RoundPlaces3,
    Rule::RoundPlaces4,
    Rule::RoundPlaces5,
    Rule::RoundPlaces6,
    Rule::RoundPlaces7,
    Rule::RoundPlaces8,
    Rule::RoundPlaces9,
    Rule::RoundPlaces10,
    Rule::RoundPlaces11,
    Rule::RoundPlaces12,
    Rule::RoundPlaces13,
    Rule::RoundPlaces14,
    Rule::RoundPlaces15,
    Rule::RoundPlaces16,
];
/// The options in each order, by their places among [`OPTIONS`].
const ORDERS: [(&[usize], Rule); 16] = [
    (&[], Rule::RoundNoOption),
    (&[0], Rule::RoundImages),
    (&[1], Rule::RoundPlaces),
    (&[2], Rule::RoundBuffer),
    (&[0, 1], Rule::RoundImagesPlaces),
    (&[1, 0], Rule::RoundPlacesImages),
    (&[0, 2], Rule::RoundImagesBuffer),
    (&[2, 0], Rule::RoundBufferImages),
    (&[1, 2], Rule::RoundPlacesBuffer),
    (&[2, 1], Rule::RoundBufferPlaces),
    (&[0, 1, 2], Rule::RoundOrder012),
    (&[0, 2, 1], Rule::RoundOrder021),
    (&[1, 0, 2], Rule::RoundOrder102),
    (&[1, 2, 0], Rule::RoundOrder120),
    (&[2, 0, 1], Rule::RoundOrder201),
    (&[2, 1, 0], Rule::RoundOrder210),
];

/// The value that an option is given, where each stands once.
fn value_of(words: &[Vec<u8>], option: usize) -> Option<&[u8]> {
    let mut pairs = words.chunks(2);
    let own = pairs.find(|pair| pair[0] == OPTIONS[option])?;
    own.get(1).map(|value| &value[..])
}

/// What is met where the program says this to its words, the file that they name and its card.
pub fn note(words: &[Vec<u8>], file: Option<&[u8]>, card: &[u8], said: &Said, book: &mut Book) {
    let fresh = &mut Book::new(None);
    let Some(asked) = asked_of(words, fresh) else {
        return note_usage(words, card, book);
    };
    let places = value_of(words, 1);
    let spelt = |option: usize| value_of(words, option).is_some_and(has_zeros);
    let many = |option: usize| value_of(words, option).is_some_and(|value| value.len() >= LONG);
    book.saw_if(spelt(1), Rule::RoundPlacesZeros);
    book.saw_if(spelt(1) && many(1), Rule::RoundPlacesZerosMany);
    book.saw_if(spelt(2), Rule::RoundBufferZeros);
    book.saw_if(spelt(2) && many(2), Rule::RoundBufferZerosMany);
    let options = words.chunks(2);
    let order: Vec<usize> = options
        .filter_map(|pair| OPTIONS.iter().position(|option| *option == pair[0]))
        .collect();
    let known = ORDERS.iter().find(|(known, _)| *known == order);
    if let Some((_, rule)) = known {
        book.saw(*rule);
    }
    let table = match read_card(card, MOST, fresh) {
        Ok(table) => table,
        Err((refusal, offset)) => {
            note_card(refusal, offset, card, book);
            let no_line = asked.buffer.is_some_and(|size| size % PAGE != 0);
            book.saw_if(
                file.is_some_and(|file| file.len() % IMAGE != 0),
                Rule::RoundCardImages,
            );
            book.saw_if(no_line, Rule::RoundCardBuffer);
            book.saw_if(asked.places == 0, Rule::RoundCardPlaces);
            return;
        }
    };
    let line = Line {
        images: file.map_or(vec![0xFF; IMAGE * memories(&table)], <[u8]>::to_vec),
        pads: Vec::new(),
        table,
    };
    let refused = |number: u8| {
        said.printed
            .ends_with(format!("\nrefused {number}\n").as_bytes())
    };
    if refused(5) {
        return note_five(&line, file, asked.places, asked.buffer, book);
    }
    note_places(places, asked.places, &line.table, book);
    if refused(4) {
        return note_four(&line.table, file, asked.places, asked.buffer, book);
    }
    let all = codes(&line.table).len();
    if places.is_some() {
        book.saw_if(all > 0 && asked.places == all, Rule::RoundExact);
        book.saw_if(asked.places < line.table.len(), Rule::RoundSpare);
        book.saw_if(asked.places == 0, Rule::RoundNoPlace);
    }
    note_line(&line.table, book);
    note_pages(&line, file.is_some(), book);
    let asked_bytes = pages_asked(&line.table);
    if asked.buffer.is_some() {
        book.saw(match asked_bytes {
            0 => Rule::RoundBufferNone,
            512 => Rule::RoundBufferMost,
            _ => Rule::RoundBufferGiven,
        });
    }
}

/// Whether a number has zeros before it that it does not need.
fn has_zeros(value: &[u8]) -> bool {
    value.len() > 1 && value[0] == b'0'
}

/// A refused card.
fn note_card(refusal: u8, offset: usize, card: &[u8], book: &mut Book) {
    book.saw(match refusal {
        1 => Rule::RoundCard1,
        2 => Rule::RoundCard2,
        _ => Rule::RoundCard3,
    });
    book.saw(match offset {
        0 => Rule::RoundCardFirst,
        192 if refusal != 1 => Rule::RoundCardFaulty17,
        _ => Rule::RoundCardLater,
    });
    book.saw_if(card.len() >= LONG, Rule::RoundCardFar);
}

/// A refusal by 5.
fn note_five(
    line: &Line,
    file: Option<&[u8]>,
    places: usize,
    buffer: Option<usize>,
    book: &mut Book,
) {
    let table = &line.table;
    let memories = memories(table);
    let asked = IMAGE * memories;
    let few = places < codes(table).len();
    let wrong_file = file.filter(|file| file.len() != asked);
    let wrong_buffer = buffer.filter(|size| *size != pages_asked(table));
    book.saw_if(
        wrong_file.is_some() && wrong_buffer.is_some(),
        Rule::Round5Both,
    );
    book.saw_if(wrong_file.is_some() && few, Rule::Round5Images4);
    book.saw_if(wrong_buffer.is_some() && few, Rule::Round5Buffer4);
    book.saw_if(
        wrong_file.is_some() && wrong_buffer.is_some() && few,
        Rule::Round5All,
    );
    if let Some(file) = wrong_file {
        let size = file.len();
        let images = size / IMAGE;
        let whole = size % IMAGE == 0;
        book.saw_if(size == 0, Rule::Round5Empty);
        book.saw_if(memories > 0 && size + 1 == asked, Rule::Round5Less);
        book.saw_if(memories > 0 && size == asked + 1, Rule::Round5More);
        let line_end = size == asked + 1 && file.ends_with(b"\n");
        book.saw_if(line_end, Rule::Round5Line);
        book.saw_if(whole && images + 1 == memories, Rule::Round5ImageLess);
        let more = memories > 0 && whole && images == memories + 1;
        book.saw_if(more, Rule::Round5ImageMore);
        book.saw_if(size == IMAGE && memories > 1, Rule::Round5One);
        let by_codes = images == borne(table).len() && whole;
        book.saw_if(by_codes && images > 0, Rule::Round5Codes);
        let by_chips = images == table.len() && whole;
        book.saw_if(by_chips && memories > 0, Rule::Round5Chips);
        book.saw_if(size == IMAGE * MOST, Rule::Round5Sixteen);
        let over = size == IMAGE * MOST + 1 && memories == MOST;
        book.saw_if(over, Rule::Round5Over);
        let low = size > asked && size % 65_536 == asked % 65_536;
        book.saw_if(low && memories > 0, Rule::Round5Two);
        book.saw_if(size > 1_000_000, Rule::Round5Far);
        book.saw_if(memories == 0, Rule::Round5NoMemory);
        book.saw_if(size == 2560 * memories && size > 0, Rule::Round5Data);
        return;
    }
    let Some(size) = wrong_buffer else {
        return;
    };
    let asked = pages_asked(table);
    let pages = asked / PAGE;
    book.saw_if(size == 0, Rule::Round5None);
    book.saw_if(asked > 0 && size + 1 == asked, Rule::Round5ByteLess);
    book.saw_if(asked > 0 && size == asked + 1, Rule::Round5ByteMore);
    book.saw_if(asked > PAGE && size + PAGE == asked, Rule::Round5PageLess);
    book.saw_if(asked > 0 && size == asked + PAGE, Rule::Round5PageMore);
    book.saw_if(size == 512, Rule::Round5Room);
    book.saw_if(size == 1024, Rule::Round5Most);
    book.saw_if(asked == 0, Rule::Round5NoPage);
    book.saw_if(
        size == PAGE * memories && memories > pages,
        Rule::Round5ForChips,
    );
    let all = codes(table).len();
    book.saw_if(
        size == PAGE * all && all > pages && pages > 0,
        Rule::Round5ForCodes,
    );
    book.saw_if(asked > 0 && size == pages, Rule::Round5InPages);
    book.saw_if(size % 256 == asked % 256, Rule::Round5Low);
    // The codes in branch order, and those of them that fit.
    let mut listed: Vec<u64> = codes(table).into_iter().collect();
    listed.sort_by_key(|code| code.reverse_bits());
    listed.truncate(places);
    let read = listed.iter().filter(|code| is_borne(table, **code)).count();
    book.saw_if(
        few && size == PAGE * read && size > 0,
        Rule::Round5ForListed,
    );
}

/// Places that are given.
fn note_places(given: Option<&[u8]>, places: usize, table: &[Chip], book: &mut Book) {
    let Some(value) = given else {
        return;
    };
    let fresh = &Book::new(None);
    let number = number_of(value, fresh).unwrap_or_default();
    if number <= MOST as u128 {
        return book.saw(PLACES[places]);
    }
    let all = codes(table).len() as u128;
    book.saw_if(number == 17, Rule::RoundOver17);
    book.saw_if(number < 256, Rule::RoundOver);
    let digits = value.iter().map(|digit| u128::from(digit - b'0'));
    let low = digits.fold(0u128, |low, digit| low.wrapping_mul(10).wrapping_add(digit));
    for (bits, rule) in [
        (8, Rule::RoundOver8),
        (16, Rule::RoundOver16),
        (32, Rule::RoundOver32),
        (64, Rule::RoundOver64),
    ] {
        book.saw_if(number >> bits > 0 && low & ((1 << bits) - 1) < all, rule);
    }
    book.saw_if(number == u128::MAX && low < all, Rule::RoundOver128);
    book.saw_if(value.len() == 30, Rule::RoundDigits30);
    book.saw_if(value.len() >= LONG && value[0] != b'0', Rule::RoundDigits);
}

/// A refusal by 4.
fn note_four(
    table: &[Chip],
    file: Option<&[u8]>,
    places: usize,
    buffer: Option<usize>,
    book: &mut Book,
) {
    let all = codes(table).len();
    book.saw_if(places == 0, Rule::Round4None);
    book.saw_if(places > 0 && places + 1 == all, Rule::Round4One);
    book.saw_if(places > 0 && places + 1 < all, Rule::Round4Some);
    book.saw_if(all == MOST && places + 1 == MOST, Rule::Round4Fifteen);
    book.saw_if(file.is_some(), Rule::Round4Images);
    book.saw_if(buffer.is_some(), Rule::Round4Buffer);
    book.saw_if(all < table.len(), Rule::Round4Twins);
    book.saw_if(borne(table).is_empty(), Rule::Round4Switches);
    let borne = borne(table).len();
    book.saw_if(borne > 0 && places > 0, Rule::Round4Memories);
}

/// The line of a round that is not refused.
fn note_line(table: &[Chip], book: &mut Book) {
    let all = codes(table).len();
    let read = borne(table).len();
    book.saw(CHIPS[table.len()]);
    book.saw(READ[read]);
    book.saw_if(all == MOST && read == MOST, Rule::RoundMost);
    book.saw_if(all == MOST && read == 0, Rule::RoundNoPage);
    book.saw_if(table.len() == MOST && all == 1, Rule::RoundOneCode);
    let has = |part: u32| table.iter().any(|chip| chip.is(part));
    book.saw_if(has(DS28EC20) && has(DS2413), Rule::RoundKinds);
    for code in codes(table) {
        let own: Vec<bool> = super::sharing(table, code)
            .map(|chip| chip.is(DS28EC20))
            .collect();
        let memories = own.iter().filter(|memory| **memory).count();
        let switches = own.len() - memories;
        book.saw_if(memories > 1, Rule::RoundTwinMemories);
        book.saw_if(memories == 0 && switches > 1, Rule::RoundTwinSwitches);
        let after = |first: bool| own.windows(2).any(|pair| pair == [first, !first]);
        book.saw_if(after(true), Rule::RoundMemoryFirst);
        book.saw_if(after(false), Rule::RoundSwitchFirst);
        let among = own.windows(3).any(|three| three == [true, false, true]);
        book.saw_if(among, Rule::RoundAmong);
        let family = code as u8;
        book.saw_if(memories > 0 && family == 0x3A, Rule::RoundFamily);
        book.saw_if(memories == 0 && family == 0x43, Rule::RoundFamilySwitch);
        let zero = code == 0;
        book.saw_if(memories == 0 && zero, Rule::RoundZeroSwitch);
        if memories > 0 {
            book.saw(match check_of(code) {
                Check::Good => Rule::RoundGood,
                Check::Bad => Rule::RoundBad,
                Check::Zeros => Rule::RoundZero,
            });
        }
    }
}

/// The pages that are read.
fn note_pages(line: &Line, from_file: bool, book: &mut Book) {
    let table = &line.table;
    book.saw_if(!from_file && memories(table) > 0, Rule::RoundBlank);
    book.saw_if(from_file && memories(table) == 0, Rule::RoundFileNone);
    book.saw_if(from_file && memories(table) == MOST, Rule::RoundFileMost);
    let first = |image: &&[u8]| -> Page { std::array::from_fn(|at| image[at]) };
    let mut pages: Vec<(u64, Page)> = Vec::new();
    for code in borne(table) {
        let own: Vec<Page> = images_of(line, code).iter().map(first).collect();
        let page = std::array::from_fn(|at| own.iter().fold(0xFF, |all, page| all & page[at]));
        let alone = own.len() == 1;
        let none = !own.contains(&page);
        let switch = super::sharing(table, code).any(|chip| chip.is(DS2413));
        book.saw_if(alone && page != [0xFF; PAGE], Rule::RoundOwn);
        book.saw_if(page == [0; PAGE], Rule::RoundZeros);
        let behind = |image: &&[u8]| image[PAGE..].iter().any(|byte| *byte != 0xFF);
        let ones = page == [0xFF; PAGE] && images_of(line, code).iter().any(behind);
        book.saw_if(ones, Rule::RoundOnes);
        book.saw_if(none, Rule::RoundAnd);
        book.saw_if(none && own.len() > 2, Rule::RoundAndThree);
        book.saw_if(none && switch, Rule::RoundAndSwitch);
        let same = !alone && own.iter().all(|other| *other == page);
        book.saw_if(same && page != [0xFF; PAGE], Rule::RoundAndSame);
        pages.push((code, page));
    }
    let switch = table.iter().position(|chip| chip.is(DS2413));
    let memory = table.iter().rposition(|chip| chip.is(DS28EC20));
    let before = switch.is_some() && switch < memory;
    let differ = pages.windows(2).any(|pair| pair[0].1 != pair[1].1);
    book.saw_if(before && differ, Rule::RoundSwitchBefore);
    book.saw_if(differ, Rule::RoundDiffer);
    // The pages in the order of the codes, of the list and of the table.
    let rising = pages.clone();
    pages.sort_by_key(|(code, _)| code.reverse_bits());
    let shown =
        |pages: &[(u64, Page)]| -> Vec<Page> { pages.iter().map(|(_, page)| *page).collect() };
    book.saw_if(shown(&pages) != shown(&rising), Rule::RoundNotRising);
    let place = |code: u64| table.iter().position(|chip| chip.code == code);
    let mut placed = pages.clone();
    placed.sort_by_key(|(code, _)| place(*code));
    book.saw_if(shown(&pages) != shown(&placed), Rule::RoundNotTable);
    let all = codes(table).len();
    book.saw_if(all < table.len() && !pages.is_empty(), Rule::RoundOnce);
}

/// Words that are not the program's.
fn note_usage(words: &[Vec<u8>], card: &[u8], book: &mut Book) {
    let fresh = &mut Book::new(None);
    let refused = read_card(card, MOST, fresh).is_err();
    book.saw_if(refused, Rule::RoundUsageCard);
    let known = |word: &[u8]| OPTIONS.iter().position(|option| *option == word);
    let mut seen: Vec<usize> = Vec::new();
    for pair in words.chunks(2) {
        let Some(option) = known(&pair[0]) else {
            return note_word(&pair[0], book);
        };
        if seen.contains(&option) {
            return book.saw(
                [
                    Rule::RoundImagesTwice,
                    Rule::RoundPlacesTwice,
                    Rule::RoundBufferTwice,
                ][option],
            );
        }
        seen.push(option);
        let Some(value) = pair.get(1) else {
            return book.saw(
                [
                    Rule::RoundImagesAlone,
                    Rule::RoundPlacesAlone,
                    Rule::RoundBufferAlone,
                ][option],
            );
        };
        let number = number_of(value, fresh);
        match (option, number) {
            (0, _) => {}
            (_, None) => return note_no_number(value, book),
            (2, Some(number)) if number > BUFFER_MOST => {
                return note_buffer(number, value, book);
            }
            _ => {}
        }
    }
}

/// A word in the place of an option.
fn note_word(word: &[u8], book: &mut Book) {
    let small = word.to_ascii_lowercase();
    let dashed = [b"-", word].concat();
    let twice = [b"--", word].concat();
    book.saw(match word {
        b"" => Rule::RoundWordEmpty,
        b"-" | b"--" => Rule::RoundWordDashes,
        _ if OPTIONS.contains(&&small[..]) => Rule::RoundWordCapitals,
        _ if OPTIONS.contains(&&dashed[..]) => Rule::RoundWordDash,
        _ if OPTIONS.contains(&&twice[..]) => Rule::RoundWordNoDash,
        _ if OPTIONS.iter().any(|option| {
            let rest = word.strip_prefix(*option);
            rest.is_some_and(|rest| rest.starts_with(b"="))
        }) =>
        {
            Rule::RoundWordEquals
        }
        _ if OPTIONS.iter().any(|option| word.starts_with(option)) => Rule::RoundWordLonger,
        _ if OPTIONS.iter().any(|option| option.starts_with(word)) => Rule::RoundWordShorter,
        _ if word.len() >= LONG => Rule::RoundWordLong,
        _ => Rule::RoundWordOther,
    });
}

/// A value that is no number.
fn note_no_number(value: &[u8], book: &mut Book) {
    let digits = value.iter().take_while(|digit| digit.is_ascii_digit());
    let digits = digits.count();
    let blank = |sign: &u8| sign.is_ascii_whitespace();
    book.saw(match value {
        b"" => Rule::RoundValueEmpty,
        [b'-', rest @ ..] if !rest.is_empty() && rest.iter().all(u8::is_ascii_digit) => {
            Rule::RoundValueMinus
        }
        [b'+', rest @ ..] if !rest.is_empty() && rest.iter().all(u8::is_ascii_digit) => {
            Rule::RoundValuePlus
        }
        _ if value.iter().any(blank) => Rule::RoundValueBlank,
        _ if value.starts_with(b"--") => Rule::RoundValueOption,
        _ if value.len() >= LONG => Rule::RoundValueLong,
        [b'0', b'x', ..] => Rule::RoundValueHex,
        _ if value.iter().any(|sign| !sign.is_ascii()) => Rule::RoundValueWide,
        _ if digits > 0 => Rule::RoundValueBegun,
        _ => Rule::RoundValueOther,
    });
}

/// A page buffer over 1,024 bytes.
fn note_buffer(number: u128, value: &[u8], book: &mut Book) {
    let digits = value.iter().map(|digit| u128::from(digit - b'0'));
    let low = digits.fold(0u128, |low, digit| low.wrapping_mul(10).wrapping_add(digit));
    book.saw_if(number == BUFFER_MOST + 1, Rule::RoundBuffer1025);
    for (bits, rule) in [
        (8, Rule::RoundBuffer8),
        (16, Rule::RoundBuffer16),
        (32, Rule::RoundBuffer32),
        (64, Rule::RoundBuffer64),
    ] {
        let rest = low & ((1 << bits) - 1);
        book.saw_if(number >> bits > 0 && rest <= BUFFER_MOST, rule);
    }
    book.saw_if(
        number == u128::MAX && low <= BUFFER_MOST,
        Rule::RoundBuffer128,
    );
    book.saw_if(value.len() >= LONG, Rule::RoundBufferDigits);
}
