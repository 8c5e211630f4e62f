//! Words of the command line that a program does not have.

/// Some lines of words, and after them such as no program has: a word that is no text, and words that run past any room.
pub fn with_long_words(lines: &[&[&str]]) -> Vec<Vec<Vec<u8>>> {
    let bytes = |line: &&[&str]| line.iter().map(|word| word.as_bytes().to_vec()).collect();
    let mut all: Vec<Vec<Vec<u8>>> = lines.iter().map(bytes).collect();
    all.push(vec![b"\xFFread".to_vec()]);
    for length in [64, 4096, 100_000] {
        all.push(vec![[&b"read"[..], &vec![b'x'; length]].concat()]);
        all.push(vec![vec![b'x'; length]]);
    }
    all
}
