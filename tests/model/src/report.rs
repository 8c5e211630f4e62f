//! How cards, scripts and answers are shown.

/// Most events shown of a script.
const SHOWN: usize = 600;

/// Bytes as capital hex digits.
pub fn hex(bytes: &[u8]) -> String {
    if bytes.is_empty() {
        return "(empty)".into();
    }
    bytes.iter().map(|byte| format!("{byte:02X}")).collect()
}

/// The place of the first answer that is not the same.
pub fn first_difference(want: &[u8], got: &[u8]) -> usize {
    let same = want.iter().zip(got).take_while(|(want, got)| want == got);
    same.count()
}

/// The events of a script, one string each, without spaces.
pub fn split_events(text: &[u8]) -> Vec<Vec<u8>> {
    let mut events: Vec<Vec<u8>> = Vec::new();
    let mut operands = 0;
    for character in text {
        match character {
            b' ' | b'\r' | b'\n' => {}
            _ if operands > 0 => {
                operands -= 1;
                if let Some(event) = events.last_mut() {
                    event.push(*character);
                }
            }
            _ => {
                operands = if *character == b'4' { 2 } else { 0 };
                events.push(vec![*character]);
            }
        }
    }
    events
}

/// The last events up to the first difference, with both answers below.
pub fn rows(text: &[u8], want: &[u8], got: &[u8]) -> String {
    let events = split_events(text);
    let end = (first_difference(want, got) + 1).min(events.len());
    let first = end.saturating_sub(SHOWN);
    let mut out = String::new();
    let mut lines = [String::new(), String::new(), String::new()];
    for (at, event) in events.iter().enumerate().take(end).skip(first) {
        let answer = |answers: &[u8]| answers.get(at).map_or('?', |known| char::from(*known));
        if matches!(event[0], b'2' | b'3') && !lines[0].is_empty() {
            lines.iter_mut().for_each(|line| line.push(' '));
        }
        lines[0] += &String::from_utf8_lossy(event);
        lines[1] += &format!("{:<1$}", answer(want), event.len());
        lines[2] += &format!("{:<1$}", answer(got), event.len());
        if lines[0].len() >= 80 || at + 1 == end {
            for (name, line) in ["events", "model", "program"].iter().zip(&mut lines) {
                out += &format!("{name:<8}{line}\n");
                line.clear();
            }
        }
    }
    out
}
