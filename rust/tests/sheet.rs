//! Job sheets, whole and damaged, against plain Rust.
mod common;
use common::Lent;
use vakhudle::plain::field::size;
use vakhudle::plain::{sheet as plain, Random};
use vakhudle::{sheet, SHEET_ROOM};

const CASE: &str = "field=2\ncurve=0,0,1,0,0\ndimension=5\nplaces=1,2,3,5,8\nmessage=1,0,0,0,0\n";

/// Answers a sheet in a buffer of random content, and compares the text and what is behind it.
fn compare(text: &[u8], random: &mut Random) -> String {
    let mut out = Lent::<u8>::new(SHEET_ROOM, random);
    let before = out.content().to_vec();
    let count = sheet(text, out.slice()).expect("a buffer of that length is accepted") as usize;
    let answer = String::from_utf8(out.content()[..count].to_vec()).unwrap();
    assert_eq!(answer, plain::answer(text), "sheet {:?}", String::from_utf8_lossy(text));
    assert_eq!(out.content()[count..], before[count..], "bytes behind the answer changed");
    answer
}

fn numbers(random: &mut Random, count: usize, most: u64) -> String {
    (0..count).map(|_| random.below(most).to_string()).collect::<Vec<_>>().join(",")
}

/// A sheet whose numbers are mostly in range.
fn any_sheet(random: &mut Random) -> String {
    let field = random.between(2, 9) as u8;
    let above = if random.once_in(8) { 70_000 } else { size(field) as u64 };
    let k = 1 + random.below(6) as usize;
    let places = if random.once_in(8) { numbers(random, k, 300) } else { (0..k).map(|i| (1 + i * 2).to_string()).collect::<Vec<_>>().join(",") };
    format!("field={field}\ncurve={}\ndimension={k}\nplaces={places}\nmessage={}\n", numbers(random, 5, above), numbers(random, k, above))
}

#[test]
fn case_of_document_01() {
    assert_eq!(compare(CASE.as_bytes(), &mut Random(1)), "answer=0\nfunction=1,0,1,2,3\nword=1,0,0,2,0,0,3,0\n");
}

/// Numbers 2 to 9 are fields; 265 is not 9, and 258 is not 2. From 65,536 on it is no number of a sheet.
#[test]
fn field_numbers() {
    let mut random = Random(8);
    for field in (0..300).chain([511, 512, 521, 32_777, 65_535, 65_536, 65_545]) {
        let sheet = CASE.replacen("field=2", &format!("field={field}"), 1);
        let answer = compare(sheet.as_bytes(), &mut random);
        match field {
            2..=9 => assert!(answer != "answer=1\n" && answer != "answer=20\n", "{field}: {answer}"),
            0..=65_535 => assert_eq!(answer, "answer=1\n", "{field}"),
            _ => assert_eq!(answer, "answer=20\n", "{field}"),
        }
    }
}

#[test]
fn every_byte_replaced_by_every_value() {
    let mut random = Random(2);
    for i in 0..CASE.len() {
        for b in 0..=255 {
            let mut text = CASE.as_bytes().to_vec();
            text[i] = b;
            compare(&text, &mut random);
        }
    }
}

#[test]
fn every_truncation_and_every_byte_twice_or_left_out() {
    let mut random = Random(3);
    for i in 0..CASE.len() {
        let text = CASE.as_bytes();
        assert_eq!(compare(&text[..i], &mut random), "answer=20\n");
        compare(&[&text[..i], &text[i + 1..]].concat(), &mut random);
        compare(&[&text[..=i], &text[i..]].concat(), &mut random);
    }
}

#[test]
fn random_bytes() {
    let mut random = Random(4);
    for _ in 0..5_000 {
        let length = random.below(200) as usize;
        let text: Vec<u8> = (0..length).map(|_| random.next() as u8).collect();
        assert_eq!(compare(&text, &mut random), "answer=20\n");
    }
}

#[test]
fn random_sheets_and_damage() {
    let mut random = Random(5);
    let mut accepted = 0;
    for _ in 0..4_000 {
        let text = any_sheet(&mut random).into_bytes();
        accepted += compare(&text, &mut random).starts_with("answer=0\n") as u32;
        let mut damaged = text.clone();
        let i = random.below(text.len() as u64) as usize;
        damaged[i] = random.pick(b"0123456789,=\n -+a");
        compare(&damaged, &mut random);
    }
    assert!(accepted > 300, "only {accepted} sheets were accepted");
}

#[test]
fn lengths_at_their_ends() {
    let mut random = Random(6);
    for count in [1, 287, 288, 289, 290] {
        let ones = vec!["1"; count].join(",");
        let answer = compare(format!("field=2\ncurve=0,0,1,0,0\ndimension=5\nplaces={ones}\nmessage={ones}\n").as_bytes(), &mut random);
        assert_eq!(answer, if count > 288 { "answer=20\n" } else { "answer=8\n" });
    }
    for length in [0, 1, 4_095, 4_096, 4_097, 10_000] {
        assert_eq!(compare(&vec![b'1'; length], &mut random), "answer=20\n");
    }
}

#[test]
fn a_short_buffer_is_refused() {
    for length in [0, 1, SHEET_ROOM - 1] {
        let mut out = Lent::<u8>::new(length, &mut Random(7));
        assert_eq!(sheet(CASE.as_bytes(), out.slice()), Err(8));
        assert!(out.is_unchanged());
    }
}
