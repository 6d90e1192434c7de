//! Deck files: a plain writer and reader, with refusals 6, 7 and 10 to 13.

use crate::deck::{Columns, refused};

/// The bytes before the swatches, and those of a swatch.
pub const HEAD: usize = 7;
pub const SWATCH: usize = 12;

/// The layout for columns of one length, whatever they hold; of a length over 65,535 the low 16 bits.
pub fn bytes(deck: Columns) -> Vec<u8> {
    let count = deck[0].len();
    let mut file = vec![b'F', b'A', b'N', 1, 0];
    file.extend((count as u16).to_le_bytes());
    for place in 0..count {
        for column in deck {
            file.extend(column[place].to_le_bytes());
        }
    }
    file
}

/// The file of a deck, or the refusal number.
pub fn write(deck: Columns, room: usize) -> Result<Vec<u8>, u32> {
    if let Some(refusal) = refused(deck) {
        return Err(refusal);
    }
    let file = bytes(deck);
    if file.len() > room { Err(13) } else { Ok(file) }
}

/// The columns of a file, or the refusal number.
pub fn read(file: &[u8], rooms: [usize; 3]) -> Result<[Vec<i32>; 3], u32> {
    let rest = file.strip_prefix(b"FAN").ok_or(10u32)?;
    let rest = rest.strip_prefix(&[1, 0]).ok_or(11u32)?;
    let (count, swatches) = rest.split_first_chunk().ok_or(12u32)?;
    let count = usize::from(u16::from_le_bytes(*count));
    if swatches.len() != SWATCH * count {
        return Err(12);
    }
    let number = |four: &[u8]| i32::from_le_bytes(four.try_into().expect("four bytes"));
    let deck = [0, 4, 8].map(|at| swatches.chunks(SWATCH).map(|s| number(&s[at..at + 4])).collect::<Vec<i32>>());
    if let Some(refusal) = refused(deck.each_ref().map(Vec::as_slice)) {
        return Err(refusal);
    }
    if rooms.iter().any(|&room| room < count) { Err(13) } else { Ok(deck) }
}
