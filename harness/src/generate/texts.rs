//! Texts: lines of tables and solvers' texts, right and damaged.

use crate::plain::print;
use crate::random::Random;

/// Bytes that a text might have in place of another.
const STRANGE: &[u8] = b"\n\n\r\t \0aAfFgG0+-/:`v\xff";

/// A text with one or two bytes changed, inserted, removed, or cut off.
fn scratched(random: &mut Random, mut text: Vec<u8>) -> Vec<u8> {
    for _ in 0..1 + random.below(2) {
        let at = random.below(text.len() + 1);
        let strange = random.pick(STRANGE);
        match random.below(5) {
            0 if at < text.len() => text[at] = strange,
            1 if at < text.len() => drop(text.remove(at)),
            2 => text.truncate(at),
            3 => text.push(strange),
            _ => text.insert(at, strange),
        }
    }
    text
}

/// Lines for the reader, right or damaged; the number of lines is often close to 256.
pub fn lines(random: &mut Random, table: &[u8]) -> Vec<u8> {
    let text = print::lines(table).into_bytes();
    match random.below(10) {
        0..=2 => text,
        3..=6 => scratched(random, text),
        7 => many_lines(random, &text),
        8 => {
            let many = many_lines(random, &text);
            scratched(random, many)
        }
        _ => end_damaged(random, text),
    }
}

/// 254 to 258 lines, perhaps with something behind them.
fn many_lines(random: &mut Random, text: &[u8]) -> Vec<u8> {
    let line = if text.len() < 17 { b"0100000000000000\n" } else { &text[..17] };
    let mut many = line.repeat(254 + random.below(5));
    let behind: [&[u8]; 5] = [b"", b"", b"\n", b"x", b"\ns SATISFIABLE\n"];
    many.extend(random.pick(&behind));
    many
}

/// The text's last bytes removed, or upper-case digits, or carriage returns.
fn end_damaged(random: &mut Random, mut text: Vec<u8>) -> Vec<u8> {
    match random.below(4) {
        0 => text.truncate(text.len().saturating_sub(1 + random.below(17))),
        1 => text = text.to_ascii_uppercase(),
        2 => text = String::from_utf8_lossy(&text).replace('\n', "\r\n").into_bytes(),
        _ => text.extend(b"\n"),
    }
    text
}

/// A solver's text for a model, right or damaged.
pub fn solver_text(random: &mut Random, model: &[u8]) -> Vec<u8> {
    let right = print::model(model);
    let wrong = |from: &str, to: &str| right.replacen(from, to, 1).into_bytes();
    match random.below(20) {
        0..=4 => right.into_bytes(),
        5 | 6 => b"s UNSATISFIABLE\n".to_vec(),
        7 => b"s UNSATISFIABLE".to_vec(),
        8 => {
            random.pick(&[&b"s UNSATISFIABLE\n\n"[..], b"s UNSATISFIABLE\nv 0\n", b"s UNKNOWN\n", b"", b"\n"]).to_vec()
        }
        9 => wrong(" 0\n", "\n"),
        10 => wrong("v 1", "v +1"),
        11 => wrong("v ", "v  "),
        12 => wrong(" 0\n", " 0 \n"),
        13 => wrong(" 0\n", " -0\n"),
        14 => wrong("\nv", "\nc none\nv"),
        15 => wrong("v 1 ", "v 01 "),
        16 => print::model(&model[..random.below(model.len() + 1)]).into_bytes(),
        17 => right.replacen(" 0\n", &format!(" {} 0\n", model.len() + 1), 1).into_bytes(),
        _ => scratched(random, right.into_bytes()),
    }
}

/// The input of the settings program and the values program: lines, an empty line, a solver's text.
pub fn settings_input(random: &mut Random, table: &[u8], model: &[u8]) -> Vec<u8> {
    let mut input = if random.percent(75) { print::lines(table).into_bytes() } else { lines(random, table) };
    if random.percent(95) {
        input.push(b'\n');
    }
    input.extend(solver_text(random, model));
    if random.percent(5) {
        input = scratched(random, input);
    }
    if random.percent(3) {
        input.extend(random.bytes(1).repeat(70_000));
    }
    input
}
