//! A line of words, each closed by a zero byte, and its limits. just has no counterpart to these.

const BYTES: usize = 1024;
const WORDS: usize = 128;

/// The words of a line, or the answer of the first limit that it oversteps.
pub fn cut(line: &[u8]) -> Result<Vec<&str>, String> {
    if line.len() > BYTES {
        return Err(refused(10, 0));
    }
    let Some((last, inner)) = line.split_last() else {
        return Ok(Vec::new());
    };
    if *last != 0 {
        return Err(refused(11, 0));
    }
    let words = inner.split(|byte| *byte == 0).collect::<Vec<&[u8]>>();
    if words.len() > WORDS {
        return Err(refused(12, 0));
    }
    let read = |(i, word)| std::str::from_utf8(word).map_err(|_| refused(13, i));
    words.into_iter().enumerate().map(read).collect()
}

fn refused(number: usize, word: usize) -> String {
    format!("refused {number} 1 {word} 0 0")
}

pub fn join<T: AsRef<str>>(words: &[T]) -> Vec<u8> {
    let mut line = Vec::new();
    for word in words {
        line.extend(word.as_ref().bytes());
        line.push(0);
    }
    line
}

pub fn hex(bytes: &[u8]) -> String {
    const DIGITS: &[u8; 16] = b"0123456789abcdef";
    let digit = |n: u8| char::from(DIGITS[usize::from(n)]);
    bytes.iter().flat_map(|b| [digit(b >> 4), digit(b & 15)]).collect()
}

pub fn unhex(text: &str) -> Option<Vec<u8>> {
    let pairs = text.as_bytes().chunks(2);
    pairs.map(|pair| u8::from_str_radix(std::str::from_utf8(pair).ok()?, 16).ok()).collect()
}
