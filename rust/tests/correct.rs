//! Correct against elimination, against the word that was sent, and against the list of all codewords.
mod common;
use common::each::{listed_codes, tests_of_each};
use common::places::{curve_a, daily, dependent_choice, some_places, with_errors, Correct, Job};
use common::{curve_that, spoil_all, trials, OwnCode, FIELDS, FIELDS_OF_256};
use vakhudle::plain::field::width;
use vakhudle::plain::places::{distance, only_zero_function, radius, recover};
use vakhudle::plain::{fast, Random};
use vakhudle::{Answer, Code, WORKING_SPACE};

tests_of_each! { Correct }

fn corrected(code: &OwnCode, received: &[u8], random: &mut Random) -> (Answer, Vec<u8>) {
    Job::<Correct>::new(code, &[], received).result(random)
}

/// The codeword of a function.
fn word_of(code: &OwnCode, function: &[u8]) -> Vec<u8> {
    let mut word = vec![0; code.n()];
    fast::plain(&code.code(), function, &mut word).unwrap();
    word
}

fn any_word(code: &OwnCode, random: &mut Random) -> Vec<u8> {
    word_of(code, &random.symbols(code.field, code.k))
}

fn is_word(code: &OwnCode, word: &[u8]) -> bool {
    recover(&code.code(), word, &mut vec![0; code.k], &mut [0; WORKING_SPACE]).is_ok()
}

/// All points, three or more, of a curve over each field, and of four curves more.
fn whole_curves(random: &mut Random) -> Vec<OwnCode> {
    let mut curve = |field| loop {
        let code = OwnCode::whole(field, curve_that(false, field, random), 1);
        if code.n() > 2 {
            return code;
        }
    };
    let mut codes: Vec<OwnCode> = FIELDS.map(&mut curve).collect();
    codes.extend([curve_a(1), daily()]);
    codes.extend(FIELDS_OF_256.map(|field| OwnCode::fullest(field, 1, random)));
    codes
}

/// The same with every dimension, or in the larger codes with some, the smallest and the largest among them.
fn dimensions(random: &mut Random, mut test: impl FnMut(&OwnCode, &mut Random)) {
    for code in whole_curves(random) {
        let n = code.n();
        for k in (1..n).filter(|k| n - k < 8 || n < 100 || k % 20 == 1) {
            test(&OwnCode { k, ..code.clone() }, random);
        }
    }
}

/// Every number of errors that can be put right, or some of them in the larger codes.
#[test]
fn no_more_than_t_errors() {
    let random = &mut Random(81);
    for (field, count) in trials([200, 200, 150, 80, 25, 8, 3, 3]) {
        for _ in 0..count {
            let code = OwnCode::random(field, random);
            let t = radius(&code.code());
            for errors in (0..=t).step_by(t / 12 + 1) {
                let word = any_word(&code, random);
                let received = with_errors(&code, &word, &some_places(code.n(), errors, random), random);
                assert_eq!(corrected(&code, &received, random), (Ok(errors as u32), word));
            }
        }
    }
}

/// With t errors the word comes back, and with one more no codeword is near: any two differ in n − k places or more.
#[test]
fn t_errors_and_one_more() {
    dimensions(&mut Random(82), |code, random| {
        let t = radius(&code.code());
        let word = any_word(code, random);
        let mut wrong = some_places(code.n(), t + 1, random);
        let received = with_errors(code, &word, &wrong, random);
        if code.n() - code.k > 1 {
            assert_eq!(corrected(code, &received, random).0, Err(21));
        }
        wrong.pop();
        let received = with_errors(code, &word, &wrong, random);
        assert_eq!(corrected(code, &received, random), (Ok(t as u32), word));
    });
}

/// What is accepted is a codeword that is near. In small codes the list of all codewords tells, too.
#[test]
fn any_number_of_errors() {
    let random = &mut Random(83);
    let (mut near, mut far) = (0, 0);
    for (field, count) in trials([1000, 1000, 500, 300, 200, 200, 100, 100]) {
        for i in 0..count {
            let mut code = OwnCode::random(field, random);
            if i % 8 != 0 {
                code.k = code.k.min(12 / width(field));
            }
            let t = radius(&code.code());
            let sent = any_word(&code, random);
            let most = if random.once_in(2) { code.n() } else { (t + 3).min(code.n()) };
            let wrong = some_places(code.n(), random.between(0, most as i64) as usize, random);
            let received = with_errors(&code, &sent, &wrong, random);
            let (answer, word) = corrected(&code, &received, random);
            match answer {
                Ok(changed) => {
                    assert!(is_word(&code, &word) && changed as usize <= t && distance(&word, &received) == changed as usize);
                    near += 1;
                }
                Err(number) => {
                    assert!(number == 21 && wrong.len() > t);
                    far += 1;
                }
            }
        }
    }
    assert!(near > 300 && far > 300, "{near} and {far}");
}

#[test]
fn all_codewords_over_4_elements() {
    let random = &mut Random(62);
    for listed in listed_codes() {
        let (code, n) = (&listed.code, listed.code.n());
        for errors in [0, 1, 2, 3, n, n] {
            let sent = &listed.words[random.below(listed.words.len() as u64) as usize];
            let received = with_errors(code, sent, &some_places(n, errors.min(n), random), random);
            let near: Vec<&Vec<u8>> = listed.words.iter().filter(|word| distance(word, &received) <= radius(&code.code())).collect();
            let expected = match near[..] {
                [] => (Err(21), vec![]),
                [word] => (Ok(distance(word, &received) as u32), word.clone()),
                _ => panic!("{near:?}"),
            };
            assert_eq!(corrected(code, &received, random), expected);
        }
    }
}

/// Two codewords that differ in n − k places, and the words between them.
#[test]
fn between_two_codewords() {
    let random = &mut Random(84);
    let mut tried = 0;
    for (field, count) in trials([100, 100, 100, 60, 15, 5, 2, 2]) {
        for _ in 0..count {
            let code = OwnCode::random(field, random);
            let (n, t) = (code.n(), radius(&code.code()));
            let Some(zeros) = dependent_choice(&code, 20, random) else { continue };
            let word = any_word(&code, random);
            let least = word_of(&code, &only_zero_function(&code.code(), &zeros).unwrap());
            let other: Vec<u8> = word.iter().zip(&least).map(|(a, b)| a ^ b).collect();
            let mut differing: Vec<usize> = (0..n).filter(|&i| least[i] != 0).collect();
            assert_eq!(differing.len(), n - code.k);
            random.shuffle(&mut differing);
            let mut received = word.clone();
            for taken in 0..=n - code.k {
                let left = n - code.k - taken;
                let expected = match taken {
                    _ if taken <= t => (Ok(taken as u32), word.clone()),
                    _ if left <= t => (Ok(left as u32), other.clone()),
                    _ => (Err(21), vec![]),
                };
                assert_eq!(corrected(&code, &received, random), expected);
                if left > 0 {
                    received[differing[taken]] = other[differing[taken]];
                }
            }
            tried += 1;
        }
    }
    assert!(tried > 100, "{tried}");
}

/// Where n − k is 1, 2 or 3 nothing is put right, and only codewords are accepted.
#[test]
fn only_codewords() {
    let random = &mut Random(85);
    for _ in 0..40 {
        for code in FIELDS.map(|field| OwnCode::random(field, random)).filter(|code| code.n() < 100).collect::<Vec<_>>() {
            for spare in 1..code.n().min(4) {
                let code = OwnCode { k: code.n() - spare, ..code.clone() };
                let word = any_word(&code, random);
                assert_eq!(corrected(&code, &word, random), (Ok(0), word.clone()));
                let errors = random.between(1, spare as i64 + 1) as usize;
                let received = with_errors(&code, &word, &some_places(code.n(), errors, random), random);
                let expected = if is_word(&code, &received) { (Ok(0), received.clone()) } else { (Err(21), vec![]) };
                assert_eq!(corrected(&code, &received, random), expected);
            }
        }
    }
}

/// The function is zero, or a constant.
#[test]
fn equal_symbols() {
    dimensions(&mut Random(86), |code, random| {
        let t = radius(&code.code());
        for symbol in [0, 1, random.below(code.size() as u64) as u8] {
            let word = vec![symbol; code.n()];
            assert_eq!(corrected(code, &word, random), (Ok(0), word.clone()));
            let mut received = word.clone();
            let (other, wrong) = (symbol ^ random.between(1, code.size() as i64 - 1) as u8, some_places(code.n(), t, random));
            wrong.iter().for_each(|&p| received[p as usize - 1] = other);
            assert_eq!(corrected(code, &received, random), (Ok(t as u32), word));
        }
    });
}

/// Errors at both points of the same X, and at neighbouring places from the first on and up to the last.
#[test]
fn errors_that_belong_together() {
    dimensions(&mut Random(87), |code, random| {
        let (n, t) = (code.n() as u16, radius(&code.code()));
        let opposite = |&[p, o]: &[u16; 2]| code.xs[p as usize - 1] == code.xs[o as usize - 1];
        let mut pairs: Vec<[u16; 2]> = (1..=n).flat_map(|p| (1..p).map(move |o| [p, o])).filter(opposite).collect();
        random.shuffle(&mut pairs);
        for mut wrong in [pairs.concat(), (1..=n).collect(), (1..=n).rev().collect()] {
            wrong.truncate(t);
            let word = any_word(code, random);
            let received = with_errors(code, &word, &wrong, random);
            assert_eq!(corrected(code, &received, random), (Ok(wrong.len() as u32), word));
        }
    });
}

/// Every single fault and all pairs of faults of calls with errors.
#[test]
fn spoilt_calls_with_errors() {
    let random = &mut Random(88);
    let mut codes = vec![daily(); 5];
    for (field, count) in trials([100, 100, 100, 80, 30, 5, 2, 2]) {
        codes.extend((0..count).map(|_| OwnCode::random(field, random)));
    }
    for mut code in codes {
        code.k = code.k.div_ceil(2);
        let errors = random.between(0, radius(&code.code()) as i64) as usize;
        let received = with_errors(&code, &any_word(&code, random), &some_places(code.n(), errors, random), random);
        spoil_all(&Job::<Correct>::new(&code, &[], &received), random);
    }
}

/// All lists and buffers in one block, with bytes between them: an accepted call writes its output and the room for work, a refused one nothing.
#[test]
fn one_block_of_memory() {
    let random = &mut Random(89);
    let code = daily();
    let (n, gap) = (code.n(), 16);
    for errors in 0..=radius(&code.code()) + 1 {
        let word = any_word(&code, random);
        let received = with_errors(&code, &word, &some_places(n, errors, random), random);
        let mut block = random.symbols(8, 4 * (gap + n) + gap + WORKING_SPACE + gap);
        for (i, list) in [&code.xs, &code.ys, &received].into_iter().enumerate() {
            block[gap + i * (gap + n)..][..n].copy_from_slice(list);
        }
        let mut expected = block.clone();
        let (lists, lent) = block.split_at_mut(3 * (gap + n) + gap);
        let (out, work) = lent.split_at_mut(n + gap);
        let list = |i: usize| &lists[gap + i * (gap + n)..][..n];
        let side_by_side = Code { xs: list(0), ys: list(1), ..code.code() };
        let answer = vakhudle::correct(&side_by_side, list(2), &mut out[..n], &mut work[..WORKING_SPACE]);
        if errors > radius(&code.code()) {
            assert_eq!(answer, Err(21));
        } else {
            assert_eq!(answer, Ok(errors as u32));
            let lent = &mut expected[3 * (gap + n) + gap..];
            lent[..n].copy_from_slice(&word);
            lent[n + gap..][..WORKING_SPACE].fill(0);
        }
        assert_eq!(block, expected);
    }
}

#[test]
fn known_cases() {
    let random = &mut Random(74);
    // constants: three of eight symbols are too many
    assert_eq!(corrected(&curve_a(1), &[3, 3, 0, 3, 1, 3, 3, 3], random), (Ok(2), vec![3; 8]));
    assert_eq!(corrected(&curve_a(1), &[3, 3, 0, 3, 1, 3, 3, 2], random), (Err(21), vec![]));
    // X itself, at 0, 0, 1, 1, 2, 2, 3, 3
    assert_eq!(corrected(&curve_a(2), &[0, 3, 1, 1, 2, 1, 3, 3], random), (Ok(2), vec![0, 0, 1, 1, 2, 2, 3, 3]));
    // n − k is 3
    assert_eq!(corrected(&curve_a(5), &[1, 0, 0, 2, 0, 0, 3, 0], random), (Ok(0), vec![1, 0, 0, 2, 0, 0, 3, 0]));
    assert_eq!(corrected(&curve_a(5), &[1, 0, 0, 2, 0, 0, 3, 1], random), (Err(21), vec![]));
}

#[test]
fn a_code_by_hand() {
    let code = Code { field: 2, curve: [0, 0, 1, 0, 0], xs: &[0, 0, 1, 1, 2], ys: &[0, 1, 2, 3, 2], k: 1 };
    let (mut symbols, mut work) = ([9; 5], [7; WORKING_SPACE + 1]);
    assert_eq!(vakhudle::correct(&code, &[2, 2, 2, 0, 2], &mut symbols, &mut work), Ok(1));
    assert_eq!((symbols, &work[..WORKING_SPACE], work[WORKING_SPACE]), ([2; 5], &[0; WORKING_SPACE][..], 7));
}
