//! The job sheet by splitting lines and lists, with no buffer and no position.
use super::{code, curve, field, places};
use crate::{Code, WORKING_SPACE};

/// A number as it is written without needless zeros.
fn number(text: &[u8]) -> Option<u16> {
    let text = std::str::from_utf8(text).ok()?;
    text.parse().ok().filter(|n: &u16| n.to_string() == text)
}

fn list(line: &[u8], key: &str, counts: std::ops::RangeInclusive<usize>) -> Option<Vec<u16>> {
    let numbers: Option<Vec<u16>> = line.strip_prefix(key.as_bytes())?.split(|&b| b == b',').map(number).collect();
    numbers.filter(|l| counts.contains(&l.len()))
}

/// The numbers of field, curve, dimension, places and message.
fn read(text: &[u8]) -> Option<[Vec<u16>; 5]> {
    let lines: Vec<&[u8]> = text.strip_suffix(b"\n")?.split(|&b| b == b'\n').collect();
    let [field, curve, dimension, places, message] = lines[..] else { return None };
    if text.len() > 4096 {
        return None;
    }
    Some([
        list(field, "field=", 1..=1)?,
        list(curve, "curve=", 5..=5)?,
        list(dimension, "dimension=", 1..=1)?,
        list(places, "places=", 1..=288)?,
        list(message, "message=", 1..=288)?,
    ])
}

/// The function and the word, or the number of the refusal.
fn run([field, curve, dimension, places, message]: [Vec<u16>; 5]) -> Result<(Vec<u8>, Vec<u8>), u8> {
    let field = u8::try_from(field[0]).ok().filter(|&m| field::is_field(m)).ok_or(1)?;
    let bytes: Result<Vec<u8>, _> = curve.iter().map(|&g| u8::try_from(g)).collect();
    let curve: [u8; 5] = bytes.map_err(|_| 2)?.try_into().unwrap();
    curve::check(field, curve)?;
    let (xs, ys): (Vec<u8>, Vec<u8>) = curve::all_points(field, curve).into_iter().unzip();
    let code = Code { field, curve, xs: &xs, ys: &ys, k: dimension[0] as usize };
    code::check(&code)?;
    if places.len() != code.k || message.len() != code.k {
        return Err(8);
    }
    if places.iter().any(|&p| p == 0 || p as usize > xs.len()) {
        return Err(9);
    }
    if (0..code.k).any(|i| places[..i].contains(&places[i])) {
        return Err(10);
    }
    if message.iter().any(|&u| u as usize >= field::size(field)) {
        return Err(11);
    }
    let message: Vec<u8> = message.iter().map(|&u| u as u8).collect();
    let (mut function, mut word, mut work) = (vec![0; code.k], vec![0; xs.len()], vec![0; WORKING_SPACE]);
    places::systematic_function(&code, &places, &message, &mut function, &mut work)?;
    places::systematic_word(&code, &places, &message, &mut word, &mut work)?;
    Ok((function, word))
}

fn joined(list: &[u8]) -> String {
    list.iter().map(u8::to_string).collect::<Vec<_>>().join(",")
}

/// The text of the answer.
pub fn answer(text: &[u8]) -> String {
    match read(text).ok_or(20).and_then(run) {
        Ok((function, word)) => format!("answer=0\nfunction={}\nword={}\n", joined(&function), joined(&word)),
        Err(number) => format!("answer={number}\n"),
    }
}
