//! The reader of the solver's text.

use crate::record::{refuse, Refusal};

/// The model that the text claims, or none.
pub fn read_claim(text: &[u8], variables: u32, room: usize) -> Result<Option<Vec<u8>>, Refusal> {
    if room < variables as usize {
        return refuse(18, variables as usize);
    }
    let (first, rest) = match line_of(text) {
        Some(parts) => parts,
        None => return refuse(21, 0),
    };
    match first {
        b"s UNSATISFIABLE" if rest.is_empty() => Ok(None),
        b"s UNSATISFIABLE" => refuse(21, 1),
        b"s SATISFIABLE" => read_model(rest, variables),
        _ => refuse(21, 0),
    }
}

fn read_model(text: &[u8], variables: u32) -> Result<Option<Vec<u8>>, Refusal> {
    let model = line_of(text).and_then(|(line, rest)| Some((model_of(line, variables)?, rest)));
    match model {
        Some((model, [])) => Ok(Some(model)),
        Some(_) => refuse(21, 2),
        None => refuse(21, 1),
    }
}

/// The first line without its line feed, and what follows it.
fn line_of(text: &[u8]) -> Option<(&[u8], &[u8])> {
    let end = text.iter().position(|&byte| byte == b'\n')?;
    Some((&text[..end], &text[end + 1..]))
}

/// The model of a line `v`, every variable once, rising, signed, and a final 0.
fn model_of(line: &[u8], variables: u32) -> Option<Vec<u8>> {
    let mut words = line.split(|&byte| byte == b' ');
    if words.next()? != b"v" {
        return None;
    }
    let mut model = vec![];
    for variable in 1..=variables {
        let word = words.next()?;
        let digits = word.strip_prefix(b"-").unwrap_or(word);
        if digits != variable.to_string().as_bytes() {
            return None;
        }
        model.push(u8::from(digits.len() == word.len()));
    }
    let ends = words.next()? == b"0" && words.next().is_none();
    ends.then_some(model)
}
