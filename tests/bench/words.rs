//! What the words of a transcript stand for, and words for octets.
use cfdp_header::TransactionId;
use hex::FromHexError;
use std::alloc::{AllocError, Global};
use std::str::FromStr;

/// Returns the first word, and those after it.
pub fn pair(words: &str) -> (&str, &str) {
    words.split_once(' ').unwrap_or((words, ""))
}

/// Returns the word at this index, from 0; an empty one if there are fewer.
pub fn word(words: &str, index: usize) -> &str {
    words.split(' ').nth(index).unwrap_or("")
}

/// Returns the number that a word spells; 0 if it spells none of this type.
pub fn number<N: FromStr + Default>(word: &str) -> N
where
    <N as FromStr>::Err: Drop,
{
    match word.parse::<N>() {
        Ok(number) => number,
        Err(_) => N::default(),
    }
}

/// Returns the transaction that SOURCE:NUMBER names.
pub fn id(word: &str) -> TransactionId {
    let (source, count) = word.split_once(':').unwrap_or(("", ""));
    TransactionId {
        source: number(source),
        number: number(count),
    }
}

/// Returns the octets that hexadecimal digits spell, or LEN of one OCTET if they are LEN:OCTET;
/// none if they are anything else.
pub fn octets(alloc: Global, digits: &str) -> Result<Vec<u8>, AllocError> {
    if let Some((len, same)) = digits.split_once(':') {
        return vec![in alloc; number::<u8>(same); number::<usize>(len)];
    }
    match hex::decode(alloc, digits) {
        Ok(octets) => Ok(octets),
        Err(FromHexError::OutOfMemory) => Err(AllocError),
        Err(_) => Ok(Vec::new(alloc)),
    }
}

/// Writes octets in hexadecimal digits, as a line.
pub fn tell_octets(alloc: Global, octets: &[u8], out: &mut String) -> Result<(), AllocError> {
    if octets.is_empty() {
        return write!(out, " -\n");
    }
    let digits = hex::encode_upper(alloc, octets)?;
    write!(out, " {digits}\n")
}

/// Returns the octets of a word, of which `-` has none.
pub fn plain(word: &str) -> &[u8] {
    if word == "-" { b"" } else { word.as_bytes() }
}

/// Returns the word of these octets.
pub fn text(octets: &[u8]) -> &str {
    if octets.is_empty() {
        "-"
    } else {
        std::str::from_utf8(octets).unwrap_or("?")
    }
}
