//! A camera picture read: a binary PPM file of N by V pixels, its guns of four bits each times 17.

const WHITE: [u8; 6] = *b" \t\n\x0B\x0C\r";
const GREATEST: u32 = 255;

/// The colours, raster after raster; none if the file is not a picture of exactly this size and form.
pub fn camera(file: &[u8], n: u32, v: u32) -> Option<Vec<u16>> {
    let mut rest = file.strip_prefix(b"P6")?;
    for wanted in [n, v, GREATEST] {
        rest = after_number(after_white(rest)?, wanted)?;
    }
    let (last_of_head, guns) = rest.split_first()?;
    let right = WHITE.contains(last_of_head)
        && guns.len() == 3 * n as usize * v as usize
        && guns.iter().all(|byte| byte % 17 == 0);
    right.then(|| guns.chunks(3).map(colour).collect())
}

/// Red, green and blue, from the lowest four bits up.
fn colour(pixel: &[u8]) -> u16 {
    pixel.iter().rev().fold(0, |colour, byte| 16 * colour + u16::from(byte / 17))
}

/// What follows white, of which there is at least some.
fn after_white(text: &[u8]) -> Option<&[u8]> {
    let mut rest = after_one_white(text)?;
    while let Some(further) = after_one_white(rest) {
        rest = further;
    }
    Some(rest)
}

/// What follows one white byte, or one comment and its line feed.
fn after_one_white(text: &[u8]) -> Option<&[u8]> {
    let (first, rest) = text.split_first()?;
    if *first == b'#' {
        let end = rest.iter().position(|byte| *byte == b'\n')?;
        return Some(&rest[end + 1..]);
    }
    WHITE.contains(first).then_some(rest)
}

/// What follows a decimal number, if it is the one wanted, which is never 0; leading zeros are passed over.
fn after_number(text: &[u8], wanted: u32) -> Option<&[u8]> {
    let (digits, rest) = text.split_at(text.iter().take_while(|byte| byte.is_ascii_digit()).count());
    let zeros = digits.iter().take_while(|digit| **digit == b'0').count();
    (digits[zeros..] == *wanted.to_string().as_bytes()).then_some(rest)
}
