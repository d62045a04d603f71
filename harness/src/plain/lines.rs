//! The reader of lines: 16 hexadecimal digits, lower case, and a line feed.

use super::acceptance::MOST_ROWS;
use crate::record::{refuse, Refusal};

/// The bytes that the reader asks for before it looks at the text.
pub const ROOM: usize = 2048;

/// A table, and the offset behind the empty line that ended it, if one did.
#[derive(Debug, PartialEq, Eq)]
pub struct Read {
    pub table: Vec<u8>,
    pub ended: Option<usize>,
}

/// Reads to the end of the text.
pub fn read_lines(text: &[u8], room: usize) -> Result<Vec<u8>, Refusal> {
    Ok(read(text, room, false)?.table)
}

/// Reads to an empty line or the end of the text.
pub fn read_lines_until_empty(text: &[u8], room: usize) -> Result<Read, Refusal> {
    read(text, room, true)
}

fn read(text: &[u8], room: usize, until_empty: bool) -> Result<Read, Refusal> {
    if room < ROOM {
        return refuse(18, ROOM);
    }
    let mut table = vec![];
    let mut at = 0;
    for line in 0.. {
        let rest = &text[at..];
        if rest.is_empty() {
            break;
        }
        if until_empty && rest[0] == b'\n' {
            return Ok(Read { table, ended: Some(at + 1) });
        }
        if line == MOST_ROWS {
            return refuse(2, 0);
        }
        match row_of(rest) {
            Some(row) => table.extend(row),
            None => return refuse(20, line),
        }
        at += 17;
    }
    Ok(Read { table, ended: None })
}

/// The row at the start of a text, if a line stands there.
fn row_of(text: &[u8]) -> Option<[u8; 8]> {
    let line = text.get(..17)?;
    if line[16] != b'\n' {
        return None;
    }
    let mut row = [0; 8];
    for (byte, digits) in row.iter_mut().zip(line.chunks(2)) {
        *byte = digit(digits[0])? * 16 + digit(digits[1])?;
    }
    Some(row)
}

fn digit(byte: u8) -> Option<u8> {
    match byte {
        b'0'..=b'9' => Some(byte - b'0'),
        b'a'..=b'f' => Some(byte - b'a' + 10),
        _ => None,
    }
}
