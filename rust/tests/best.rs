//! Best against plain Rust that tries one change after the other, against the list of all codewords, and against the word that was sent.
mod common;
use common::each::Listed;
use common::places::{curve_a, daily, dependent_choice, some_places, symbols_at, usable_choice, with_errors};
use common::{above, other_length, spoil_all, trials, Call, Lent, OwnCode, FIELDS, FIELDS_OF_256};
use vakhudle::plain::best::{all_tries, changes, cost, gap, least_untried_of_all, picked, ranking};
use vakhudle::plain::{best as simple, fast, Random};
use vakhudle::{Answer, Code, FIGURES, MOST_TRIES, WORKING_SPACE};

type Run = fn(&Code, &[u8], &[u8], u32, &mut [u8], &mut [u32], &mut [u8]) -> Answer;

/// The proved one, then the others.
const RUNS: [Run; 3] = [vakhudle::best, simple::best, fast::best];

/// A call of Best.
#[derive(Clone, Debug)]
struct Search {
    code: OwnCode,
    received: Vec<u8>,
    trusts: Vec<u8>,
    budget: u32,
    room: usize,
    figures: usize,
    work: usize,
}

/// What is written where a call is accepted.
#[derive(Clone, Debug, PartialEq)]
struct Found {
    word: Vec<u8>,
    cost: u32,
    tries: u32,
    gap: u32,
}

impl Search {
    fn new(code: &OwnCode, received: &[u8], trusts: &[u8], budget: u32) -> Self {
        // some working spaces are longer than need be
        let (room, work) = (code.n(), WORKING_SPACE + code.k % 3);
        Search { code: code.clone(), received: received.to_vec(), trusts: trusts.to_vec(), budget, room, figures: FIGURES, work }
    }

    /// The answer of all implementations, with what they write. What they were lent must be equal afterwards, borders must stay, a refusal must change
    /// nothing, and the working space must be cleared by acceptance.
    fn result(&self, random: &mut Random) -> Result<Found, u8> {
        let (word, figures, work) = (Lent::new(self.room, random), Lent::new(self.figures, random), Lent::work(self.work, random));
        let mut results = RUNS.map(|run| {
            let (mut word, mut figures, mut work) = (word.clone(), figures.clone(), work.clone());
            let (code, received, trusts) = (self.code.code(), &self.received[..], &self.trusts[..]);
            let answer = run(&code, received, trusts, self.budget, word.slice(), figures.slice(), work.slice());
            (answer, word, figures, work)
        });
        let (ours, others) = results.split_first_mut().unwrap();
        let (answer, word, figures, work) = ours;
        for (i, (other, other_word, other_figures, other_work)) in others.iter().enumerate() {
            assert_eq!(answer, other, "answer of version {i}");
            assert_eq!(word.content(), other_word.content(), "the word of version {i}");
            assert_eq!(figures.content(), other_figures.content(), "the figures of version {i}");
            assert!(work.is_all_equal(other_work), "the working space of version {i}");
        }
        assert!(word.border_is_unchanged() && figures.border_is_unchanged() && work.border_is_unchanged(), "the border of a lent slice");
        match answer {
            Ok(count) => {
                assert!(*count == 0 && work.is_cleared());
                let [cost, tries, gap] = figures.content().try_into().unwrap();
                Ok(Found { word: word.content().to_vec(), cost, tries, gap })
            }
            Err(number) => {
                assert!(word.is_unchanged() && figures.is_unchanged() && work.is_unchanged(), "a refused call wrote");
                Err(*number)
            }
        }
    }

    fn found(&self, random: &mut Random) -> Found {
        self.result(random).unwrap()
    }
}

impl Call for Search {
    const ORDER: &'static [u8] = &[1, 2, 3, 4, 5, 6, 7, 8, 11, 23];

    fn spoil(&mut self, entry: usize, random: &mut Random) -> bool {
        match Self::ORDER[entry] {
            8 => match random.below(5) {
                0 => self.received.resize(other_length(self.received.len(), random), 0),
                1 => self.trusts.resize(other_length(self.trusts.len(), random), 0),
                2 => self.room = other_length(self.room, random),
                3 => self.figures = other_length(self.figures, random),
                _ => self.work = random.pick(&[0, 1, 292, 2_048, 4_096, 8_191]),
            },
            11 if self.code.size() == 256 || self.received.is_empty() => return false,
            11 => {
                let i = random.below(self.received.len() as u64) as usize;
                self.received[i] = above(self.code.size(), random);
            }
            // the last ones look right when cut to 16 bits, or as signed numbers
            23 => self.budget = random.pick(&[0, 65_536, 65_537, 1 << 17, u32::MAX, self.budget | 1 << 16, self.budget | 1 << 31]),
            number => return self.code.spoil(number, random),
        }
        true
    }

    fn run(&self, random: &mut Random) -> Answer {
        self.result(random).map(|_| 0)
    }
}

/// Trusts all 0, all alike, of two and of four values, and any.
fn kinds_of_trusts(n: usize, random: &mut Random) -> [Vec<u8>; 6] {
    let alike = random.between(1, 255) as u8;
    let (two, four): ([u8; 2], [u8; 4]) = (random.symbols(8, 2).try_into().unwrap(), random.symbols(8, 4).try_into().unwrap());
    [
        vec![0; n],
        vec![alike; n],
        (0..n).map(|_| random.pick(&two)).collect(),
        (0..n).map(|_| random.pick(&four)).collect(),
        (0..n).map(|_| random.between(0, 3) as u8).collect(),
        random.symbols(8, n),
    ]
}

fn any_trusts(n: usize, random: &mut Random) -> Vec<u8> {
    let kinds = kinds_of_trusts(n, random);
    kinds[random.below(6) as usize].clone()
}

fn any_word(code: &OwnCode, random: &mut Random) -> Vec<u8> {
    let mut word = vec![0; code.n()];
    fast::plain(&code.code(), &random.symbols(code.field, code.k), &mut word).unwrap();
    word
}

/// A codeword with up to `most` wrong symbols, or any symbols; and the codeword.
fn any_received(code: &OwnCode, most: usize, random: &mut Random) -> (Vec<u8>, Vec<u8>) {
    let sent = any_word(code, random);
    let errors = random.between(0, most.min(code.n()) as i64) as usize;
    let received = with_errors(code, &sent, &some_places(code.n(), errors, random), random);
    let received = if random.once_in(4) { random.symbols(code.field, code.n()) } else { received };
    (received, sent)
}

/// Budgets at and beside the ends of the first try, of the values of the last place, of all single places, of the first row of a pair, of the first pair and
/// the second, of the pairs of the last place, and of all tries; and the largest.
fn boundaries(code: &OwnCode) -> Vec<u32> {
    let (k, values) = (code.k, code.size() - 1);
    let (singles, pair) = (1 + k * values, values * values);
    let all = all_tries(k, code.size());
    let ends = [1, 1 + values, singles, singles + values, singles + pair, singles + 2 * pair, singles + (k - 1) * pair, all];
    let mut budgets: Vec<u32> = ends.iter().flat_map(|&end| [end as u32 - 1, end as u32, end as u32 + 1]).chain([MOST_TRIES]).collect();
    budgets.retain(|budget| (1..=MOST_TRIES).contains(budget));
    budgets.sort();
    budgets.dedup();
    budgets
}

/// All of these in the smaller fields, and one of three in the larger.
fn some_boundaries(code: &OwnCode, random: &mut Random) -> Vec<u32> {
    boundaries(code).into_iter().filter(|_| code.field < 6 || random.once_in(3)).collect()
}

/// What holds of the results of rising budgets: the tries made, never a dearer word, and of each codeword in the list that it is not cheaper by more than the
/// gap.
fn check_promises(search: &Search, budgets: &[u32], words: &[Vec<u8>], random: &mut Random) {
    let Search { code, received, trusts, .. } = search;
    let all = all_tries(code.k, code.size()) as u64;
    let least = words.iter().map(|word| cost(word, received, trusts)).min().unwrap();
    let mut before = u32::MAX;
    for &budget in budgets {
        let found = Search { budget, ..search.clone() }.found(random);
        assert_eq!((found.tries as u64, found.cost), ((budget as u64).min(all), cost(&found.word, received, trusts)));
        assert!(found.cost <= before && found.cost <= least + found.gap, "{found:?} beside {least}: {search:?}");
        before = found.cost;
    }
}

/// What each budget from 1 on must give, worked out with the list of all codewords: a try is the codeword in the list that agrees at the picked places.
fn expected(listed: &Listed, received: &[u8], trusts: &[u8], budgets: &[u32]) -> Vec<Found> {
    let (code, k) = (&listed.code, listed.code.k);
    let places = picked(&code.code(), trusts);
    let symbols = symbols_at(received, &places);
    let words: Vec<&Vec<u8>> = changes(k, code.size())
        .map(|change| {
            let mut symbols = symbols.clone();
            change.iter().for_each(|&(i, e)| symbols[i] ^= e);
            let agreeing = listed.agreeing(&places, &symbols);
            assert_eq!(agreeing.len(), 1);
            &listed.words[agreeing[0]]
        })
        .collect();
    let of_budget = |&budget: &u32| {
        let tries = words.len().min(budget as usize);
        let word = words[..tries].iter().min_by_key(|word| cost(word, received, trusts)).unwrap();
        let cost = cost(word, received, trusts);
        let gap = gap(cost, least_untried_of_all(&symbols_at(trusts, &places), code.size(), tries));
        Found { word: word.to_vec(), cost, tries: tries as u32, gap }
    };
    budgets.iter().map(of_budget).collect()
}

/// The results for all these budgets are those of the list, no codeword of all is cheaper by more than the gap, and where nothing is untried none is cheaper.
fn check_with_list(listed: &Listed, received: &[u8], trusts: &[u8], budgets: &[u32], random: &mut Random) {
    let code = &listed.code;
    let least = listed.words.iter().map(|word| cost(word, received, trusts)).min().unwrap();
    let mut before = u32::MAX;
    for (&budget, expected) in budgets.iter().zip(expected(listed, received, trusts, budgets)) {
        let found = Search::new(code, received, trusts, budget).found(random);
        assert_eq!(found, expected, "{code:?}, {received:?}, {trusts:?}, {budget}");
        assert!(found.cost <= before && found.cost <= least + found.gap);
        // three places are never changed together
        if code.k <= 2 && budget as usize >= all_tries(code.k, 4) {
            assert_eq!((found.cost, found.gap), (least, 0));
        }
        before = found.cost;
    }
}

/// The curves with eight and with seven points over 4 elements, k = 1, 2, 3: every word up to codewords, which are added at random, and every budget.
#[test]
fn every_budget_of_every_word() {
    let random = &mut Random(90);
    for whole in [curve_a(1), OwnCode::whole(2, [1, 0, 0, 0, 1], 1)] {
        for k in 1..=3 {
            let listed = Listed::new(OwnCode { k, ..whole.clone() });
            let n = whole.n();
            let budgets: Vec<u32> = (1..=all_tries(k, 4) as u32 + 1).collect();
            // words that are zero at a usable choice differ from each other by no codeword
            let zeros = usable_choice(&listed.code, random);
            let free: Vec<usize> = (0..n).filter(|&i| !zeros.contains(&(i as u16 + 1))).collect();
            for number in 0..1u32 << (2 * free.len()) {
                let mut received = listed.words[random.below(listed.words.len() as u64) as usize].clone();
                free.iter().enumerate().for_each(|(j, &i)| received[i] ^= (number >> (2 * j) & 3) as u8);
                for _ in 0..[1, 1, 3][k - 1] {
                    check_with_list(&listed, &received, &any_trusts(n, random), &budgets, random);
                }
            }
        }
    }
}

/// The same curves with every larger dimension, some words, and some budgets.
#[test]
fn larger_dimensions_over_4_elements() {
    let random = &mut Random(91);
    for whole in [curve_a(1), OwnCode::whole(2, [1, 0, 0, 0, 1], 1)] {
        for k in 4..whole.n() {
            let listed = Listed::new(OwnCode { k, ..whole.clone() });
            for _ in 0..6 {
                let mut budgets: Vec<u32> = (0..4).map(|_| random.between(1, all_tries(k, 4) as i64 + 1) as u32).collect();
                budgets.extend(boundaries(&listed.code));
                budgets.sort();
                for trusts in kinds_of_trusts(whole.n(), random) {
                    let (received, _) = any_received(&listed.code, 4, random);
                    check_with_list(&listed, &received, &trusts, &budgets, random);
                }
            }
        }
    }
}

/// Codes over every field, all kinds of trusts, budgets at every boundary. Of the codewords those are compared that were sent, are found, or are any.
#[test]
fn random_codes() {
    let random = &mut Random(92);
    for (field, count) in trials([150, 80, 40, 16, 6, 2, 1, 1]) {
        for _ in 0..count {
            let code = OwnCode::random(field, random);
            for trusts in kinds_of_trusts(code.n(), random) {
                let budgets = some_boundaries(&code, random);
                let (received, sent) = any_received(&code, 6, random);
                let search = Search::new(&code, &received, &trusts, 1);
                let last = Search { budget: MOST_TRIES, ..search.clone() }.found(random).word;
                let words = [sent, last, any_word(&code, random), any_word(&code, random)];
                check_promises(&search, &budgets, &words, random);
            }
        }
    }
}

/// Codes over every field with so few places that all budgets up to some hundreds are quickly tried.
#[test]
fn budgets_one_by_one() {
    let random = &mut Random(93);
    for (field, count) in trials([20, 20, 10, 8, 4, 2, 1, 1]) {
        for _ in 0..count {
            let mut code = OwnCode::random(field, random);
            let n = code.n().min(9);
            code.xs.truncate(n);
            code.ys.truncate(n);
            code.k = random.between(1, n as i64 - 1) as usize;
            let (received, sent) = any_received(&code, 4, random);
            let most = (all_tries(code.k, code.size()) + 2).min(600) as u32;
            let search = Search::new(&code, &received, &any_trusts(n, random), 1);
            check_promises(&search, &(1..=most).collect::<Vec<_>>(), &[sent], random);
        }
    }
}

/// The first k places by trust are dependent, so that Pick passes the last of them by.
#[test]
fn dependent_ranks() {
    let random = &mut Random(94);
    let mut passed_by = 0;
    for (field, count) in trials([60, 60, 40, 20, 8, 2, 1, 1]) {
        for _ in 0..count {
            let code = OwnCode::random(field, random);
            let Some(choice) = dependent_choice(&code, 20, random) else { continue };
            let mut trusts: Vec<u8> = (0..code.n()).map(|_| random.between(0, 100) as u8).collect();
            let highest = if random.once_in(2) { 100 } else { 255 };
            choice.iter().for_each(|&p| trusts[p as usize - 1] = random.between(100, highest) as u8);
            let (ranked, places) = (ranking(&trusts), picked(&code.code(), &trusts));
            if places != ranked[..code.k] {
                passed_by += 1;
                assert!(places[..code.k - 1] == ranked[..code.k - 1] && places[code.k - 1] == ranked[code.k]);
            }
            let (received, sent) = any_received(&code, 4, random);
            check_promises(&Search::new(&code, &received, &trusts, 1), &some_boundaries(&code, random), &[sent], random);
        }
    }
    assert!(passed_by > 50, "{passed_by}");
}

/// The number of the try that changes these picked places, counted from 1.
fn number_of(change: &[(usize, u8)], k: usize, q: usize) -> usize {
    let values = q - 1;
    match *change {
        [] => 1,
        [(i, e)] => 1 + (k - 1 - i) * values + e as usize,
        [(later, d), (earlier, e)] => {
            let pairs_before = (later + 1..k).sum::<usize>() + later - 1 - earlier;
            1 + k * values + pairs_before * values * values + (d as usize - 1) * values + e as usize
        }
        _ => unreachable!(),
    }
}

#[test]
fn numbers_of_changes() {
    for (k, q) in [(1, 4), (2, 4), (5, 4), (3, 8), (4, 16)] {
        changes(k, q).enumerate().for_each(|(i, change)| assert_eq!(number_of(&change, k, q), i + 1));
    }
}

/// A codeword is received wrong at these picked places, where all trusts are alike: its own try gives it back, and none before, since any other codeword
/// differs in n − k places or more. Answers whether there is such a try.
fn found_by_its_try(code: &OwnCode, change: &[(usize, u8)], random: &mut Random) -> bool {
    assert!(code.n() - code.k > 2 * change.len());
    let number = number_of(change, code.k, code.size()) as u32;
    let trusts = vec![random.between(1, 255) as u8; code.n()];
    let places = picked(&code.code(), &trusts);
    let sent = any_word(code, random);
    let mut received = sent.clone();
    change.iter().for_each(|&(i, e)| received[places[i] as usize - 1] ^= e);
    let search = Search::new(code, &received, &trusts, MOST_TRIES.min(number));
    let found = search.found(random);
    if number > MOST_TRIES {
        assert_ne!(found.word, sent);
        return false;
    }
    assert_eq!((found.word, found.cost, found.tries), (sent.clone(), change.len() as u32 * trusts[0] as u32, number));
    if number > 1 {
        assert_ne!(Search { budget: number - 1, ..search.clone() }.found(random).word, sent);
    }
    assert_eq!(Search { budget: MOST_TRIES, ..search }.found(random).word, sent);
    true
}

#[test]
fn one_and_two_changes() {
    let random = &mut Random(95);
    for (field, count) in trials([40, 40, 30, 20, 10, 3, 1, 1]) {
        for _ in 0..count {
            let code = OwnCode::random(field, random);
            if code.n() < 7 {
                continue;
            }
            let code = OwnCode { k: random.between(2, code.n() as i64 - 5) as usize, ..code };
            let (k, last) = (code.k, code.size() as i64 - 1);
            let mut value = || random.between(1, last) as u8;
            let singles: [Vec<(usize, u8)>; 3] = [vec![(k - 1, value())], vec![(0, value())], vec![(k / 2, value())]];
            let pairs = [vec![(k - 1, value()), (k - 2, value())], vec![(k - 1, value()), (0, value())], vec![(1, value()), (0, value())]];
            for change in [vec![]].into_iter().chain(singles).chain(pairs) {
                found_by_its_try(&code, &change, random);
            }
        }
    }
}

/// All values of a change at one place, and all of them at each of two, in the fields of 256: 65,535 tries are one fewer than all where k is 2.
#[test]
fn all_values_of_256_elements() {
    let random = &mut Random(96);
    for field in FIELDS_OF_256 {
        let full = OwnCode::fullest(field, 1, random);
        for value in 1..=255 {
            found_by_its_try(&OwnCode { k: 1, ..full.clone() }, &[(0, value)], random);
        }
        let two = OwnCode { k: 2, xs: full.xs[..20].to_vec(), ys: full.ys[..20].to_vec(), ..full.clone() };
        for value in [1, 2, 126, 127, 128, 129, 254, 255] {
            for other in [1, 127, 128, 129, 254, 255] {
                assert_eq!(found_by_its_try(&two, &[(1, value), (0, other)], random), value & other < 255);
            }
        }
        // the first value of a pair that is no longer tried
        for k in [100, 256, 257] {
            let code = OwnCode { k, xs: full.xs[..k + 6].to_vec(), ys: full.ys[..k + 6].to_vec(), ..full.clone() };
            for value in [128, 255] {
                assert!(found_by_its_try(&code, &[(k - 1, value)], random));
                assert_eq!(found_by_its_try(&code, &[(0, value)], random), k < 257 || value < 255);
            }
            let left = (MOST_TRIES as usize).saturating_sub(1 + k * 255);
            let (d, e) = ((left / 255) as u8 + 1, (left % 255) as u8);
            if e > 0 {
                assert!(found_by_its_try(&code, &[(k - 1, d), (k - 2, e)], random));
            }
            assert!(!found_by_its_try(&code, &[(k - 1, d), (k - 2, e + 1)], random));
        }
    }
}

/// Large codes and the largest budget, with errors at places of low trust.
#[test]
fn large_codes() {
    let random = &mut Random(97);
    for field in FIELDS_OF_256 {
        let full = OwnCode::fullest(field, 1, random);
        for k in [1, 2, 3, 40, 128, 200, 256, 257, 285, 286, 287] {
            let code = OwnCode { k, ..full.clone() };
            let (received, sent, trusts) = block(&code, random.between(0, 6) as usize, random);
            check_promises(&Search::new(&code, &received, &trusts, 1), &[1, 65_534, MOST_TRIES], &[sent], random);
            let (received, sent) = any_received(&code, 4, random);
            check_promises(&Search::new(&code, &received, &any_trusts(288, random), 1), &[256, MOST_TRIES], &[sent], random);
        }
    }
}

/// A codeword received with so many errors: the received word, the codeword, and the trusts. A wrong symbol has a trust of 0 to 127, a right one of 128 to 255,
/// or once in four times any.
fn block(code: &OwnCode, errors: usize, random: &mut Random) -> (Vec<u8>, Vec<u8>, Vec<u8>) {
    let sent = any_word(code, random);
    let received = with_errors(code, &sent, &some_places(code.n(), errors, random), random);
    let trust = |i: usize| match received[i] == sent[i] {
        true if random.once_in(4) => random.between(0, 255),
        true => random.between(128, 255),
        false => random.between(0, 127),
    };
    let trusts = (0..code.n()).map(trust).map(|trust| trust as u8).collect();
    (received, sent, trusts)
}

/// The daily block. If no picked symbol is wrong, the first try is the word that was sent, and it costs what the wrong symbols are trusted.
#[test]
fn daily_blocks() {
    let random = &mut Random(98);
    let code = daily();
    assert_eq!(all_tries(60, 64), 1 + 3_780 + 1_770 * 3_969);
    let mut at_once = 0;
    for errors in (0..=12).cycle().take(52) {
        let (received, sent, trusts) = block(&code, errors, random);
        let search = Search::new(&code, &received, &trusts, 1);
        let wrong_at_picked = picked(&code.code(), &trusts).iter().filter(|&&p| received[p as usize - 1] != sent[p as usize - 1]).count();
        if wrong_at_picked == 0 {
            let found = search.found(random);
            assert_eq!((found.word, found.cost, found.tries), (sent.clone(), cost(&sent, &received, &trusts), 1));
            at_once += 1;
        }
        if wrong_at_picked == 1 {
            let found = Search { budget: 3_781, ..search.clone() }.found(random);
            assert!(found.cost <= cost(&sent, &received, &trusts));
        }
        check_promises(&search, &[1, 3_780, 3_781, 3_782, 7_750, MOST_TRIES], &[sent], random);
    }
    assert!(at_once > 10, "{at_once}");
    for trusts in kinds_of_trusts(80, random) {
        let (received, sent) = any_received(&code, 12, random);
        check_promises(&Search::new(&code, &received, &trusts, 1), &[1, 3_781, MOST_TRIES], &[sent], random);
    }
}

/// A codeword that arrives as it was sent costs nothing, whatever the trusts and the budget.
#[test]
fn codewords() {
    let random = &mut Random(99);
    for (field, count) in trials([100, 100, 60, 30, 10, 4, 2, 2]) {
        for _ in 0..count {
            let code = OwnCode::random(field, random);
            let sent = any_word(&code, random);
            // of words that cost nothing the earliest is given, which the first try is
            for trusts in kinds_of_trusts(code.n(), random) {
                let budget = random.between(1, 3_000) as u32;
                let found = Search::new(&code, &sent, &trusts, budget).found(random);
                assert_eq!((found.word, found.cost, found.gap), (sent.clone(), 0, 0));
            }
        }
    }
}

/// Every single fault and all pairs of faults.
#[test]
fn spoilt_calls() {
    let random = &mut Random(69);
    let mut codes = vec![daily(); 3];
    for (field, count) in trials([150, 150, 100, 80, 40, 10, 4, 4]) {
        codes.extend((0..count).map(|_| OwnCode::random(field, random)));
    }
    for code in codes {
        let (received, _) = any_received(&code, 4, random);
        let budget = random.between(1, 4_000) as u32;
        spoil_all(&Search::new(&code, &received, &any_trusts(code.n(), random), budget), random);
    }
}

/// Budgets that are refused, in every field, and the nearest that are not.
#[test]
fn budgets_out_of_range() {
    let random = &mut Random(70);
    for field in FIELDS {
        let mut code = OwnCode::random(field, random);
        code.k = code.k.min(2);
        let (received, _) = any_received(&code, 4, random);
        let search = Search::new(&code, &received, &any_trusts(code.n(), random), 1);
        for budget in [0, 65_536, 65_537, 131_071, 131_072, 1 << 31, u32::MAX] {
            assert_eq!(Search { budget, ..search.clone() }.result(random), Err(23));
        }
        let all = all_tries(code.k, code.size()) as u32;
        for budget in [1, 2, 65_534, MOST_TRIES] {
            assert_eq!(Search { budget, ..search.clone() }.found(random).tries, budget.min(all));
        }
    }
}

/// Each symbol out of range by itself.
#[test]
fn a_fault_at_every_index() {
    let random = &mut Random(71);
    for field in FIELDS.filter(|field| !FIELDS_OF_256.contains(field)) {
        let code = OwnCode::random(field, random);
        let (received, _) = any_received(&code, 4, random);
        let search = Search::new(&code, &received, &any_trusts(code.n(), random), 9);
        for i in 0..code.n() {
            let mut search = search.clone();
            search.received[i] = above(code.size(), random);
            assert_eq!(search.result(random), Err(11));
        }
    }
}

/// Every length that is wrong by one, of each list, and of working spaces; what is past the first 8,192 bytes stays.
#[test]
fn lengths() {
    let random = &mut Random(72);
    for code in [curve_a(5), daily()] {
        let (received, _) = any_received(&code, 4, random);
        let n = code.n();
        let search = Search::new(&code, &received, &any_trusts(n, random), 99);
        for work in [0, 1, 584, 2_048, 4_096, 8_190, 8_191, 8_192, 8_193, 8_200, 10_000, 65_536] {
            let answer = Search { work, ..search.clone() }.run(random);
            assert_eq!(answer, if work < WORKING_SPACE { Err(8) } else { Ok(0) });
        }
        for length in [0, 1, n - 1, n + 1, 2 * n] {
            let resized = |list: &[u8]| list.iter().copied().cycle().take(length).collect::<Vec<u8>>();
            assert_eq!(Search { received: resized(&search.received), ..search.clone() }.run(random), Err(8));
            assert_eq!(Search { trusts: resized(&search.trusts), ..search.clone() }.run(random), Err(8));
            assert_eq!(Search { room: length, ..search.clone() }.run(random), Err(8));
        }
        for figures in [0, 1, 2, 4, 12] {
            assert_eq!(Search { figures, ..search.clone() }.run(random), Err(8));
        }
        let none = OwnCode { xs: vec![], ys: vec![], ..code.clone() };
        assert_eq!(Search { work: 0, ..Search::new(&none, &[], &[], 0) }.run(random), Err(4));
    }
}

/// Whatever the bytes are, the answer is the definition's.
#[test]
fn bytes_at_random() {
    let random = &mut Random(73);
    let mut answers = [0; 24];
    for _ in 0..20_000 {
        let mut code = OwnCode::random(2, random);
        if random.once_in(3) {
            code.k = random.below(9) as usize;
        }
        let length = |random: &mut Random| if random.once_in(12) { random.below(10) as usize } else { code.n() };
        let most = if random.once_in(4) { 5 } else { 4 };
        let received: Vec<u8> = (0..length(random)).map(|_| random.below(most) as u8).collect();
        let trusted = length(random);
        let trusts = random.symbols(8, trusted);
        let budget = if random.once_in(6) { random.pick(&[0, 65_536, u32::MAX]) } else { random.between(1, 400) as u32 };
        let mut search = Search::new(&code, &received, &trusts, budget);
        if random.once_in(12) {
            (search.room, search.figures) = (random.below(10) as usize, random.below(5) as usize);
        }
        answers[search.run(random).err().unwrap_or(0) as usize] += 1;
    }
    assert!([0, 7, 8, 11, 23].iter().all(|&number| answers[number] > 40), "{answers:?}");
}

/// All lists and buffers in one block, with bytes between them: an accepted call writes its outputs and the working space, a refused one nothing.
#[test]
fn one_block_of_memory() {
    let random = &mut Random(89);
    let code = daily();
    let (n, between) = (code.n(), 16);
    for budget in [1, 0, 3_781, 65_536, 200] {
        let (received, _, trusts) = block(&code, 6, random);
        let mut bytes = random.symbols(8, 5 * (between + n) + between + WORKING_SPACE + between);
        for (i, list) in [&code.xs, &code.ys, &received, &trusts].into_iter().enumerate() {
            bytes[between + i * (between + n)..][..n].copy_from_slice(list);
        }
        let mut expected = bytes.clone();
        let (lists, lent) = bytes.split_at_mut(4 * (between + n) + between);
        let (out, work) = lent.split_at_mut(n + between);
        let list = |i: usize| &lists[between + i * (between + n)..][..n];
        let side_by_side = Code { xs: list(0), ys: list(1), ..code.code() };
        let mut figures = [7; FIGURES + 2];
        let answer = vakhudle::best(&side_by_side, list(2), list(3), budget, &mut out[..n], &mut figures[1..FIGURES + 1], &mut work[..WORKING_SPACE]);
        let mut expected_figures = [7; FIGURES + 2];
        if (1..=MOST_TRIES).contains(&budget) {
            let found = Search::new(&code, &received, &trusts, budget).found(random);
            assert_eq!(answer, Ok(0));
            expected_figures[1..FIGURES + 1].copy_from_slice(&[found.cost, found.tries, found.gap]);
            let lent = &mut expected[4 * (between + n) + between..];
            lent[..n].copy_from_slice(&found.word);
            lent[n + between..][..WORKING_SPACE].fill(0);
        } else {
            assert_eq!(answer, Err(23));
        }
        assert!(bytes == expected && figures == expected_figures);
    }
}

#[test]
fn known_cases() {
    let random = &mut Random(74);
    let mut found = |received: [u8; 8], trusts: [u8; 8], budget| {
        let found = Search::new(&curve_a(1), &received, &trusts, budget).found(random);
        assert_eq!(found.word, [found.word[0]; 8]);
        (found.word[0], found.cost, found.tries, found.gap)
    };
    // constants: place 3 is picked, and its symbol 0 is tried first, then 1, 2, 3
    let (received, trusts) = ([3, 3, 0, 3, 1, 3, 3, 3], [9, 9, 10, 9, 9, 9, 9, 9]);
    assert_eq!(found(received, trusts, 1), (0, 63, 1, 53));
    assert_eq!(found(received, trusts, 2), (0, 63, 2, 53));
    assert_eq!(found(received, trusts, 3), (0, 63, 3, 53));
    assert_eq!(found(received, trusts, 4), (3, 19, 4, 0));
    assert_eq!(found(received, trusts, 65_535), (3, 19, 4, 0));
    // so much trusted that nothing untried can be cheaper
    assert_eq!(found(received, [9, 9, 200, 9, 9, 9, 9, 9], 1), (0, 63, 1, 0));
    // all cost the same, and the first try is given
    assert_eq!(found([0, 0, 1, 1, 2, 2, 3, 3], [5; 8], 3), (0, 30, 3, 25));
    assert_eq!(found([1, 0, 0, 1, 2, 2, 3, 3], [5; 8], 4), (1, 30, 4, 0));
    // X itself, at 0, 0, 1, 1, 2, 2, 3, 3: places 1 and 3 are picked, since 1 and 2 are dependent
    let two = |budget, random: &mut Random| Search::new(&curve_a(2), &[0, 0, 3, 1, 2, 2, 3, 3], &[8; 8], budget).found(random);
    let word = vec![0, 0, 1, 1, 2, 2, 3, 3];
    // 3 is 1 exclusive-or 2: the third try
    assert_ne!(two(2, random).word, word);
    assert_eq!(two(3, random), Found { word: word.clone(), cost: 8, tries: 3, gap: 0 });
    assert_eq!(two(16, random), Found { word: word.clone(), cost: 8, tries: 16, gap: 0 });
    assert_eq!(two(17, random), Found { word, cost: 8, tries: 16, gap: 0 });
}

#[test]
fn a_code_by_hand() {
    let code = Code { field: 2, curve: [0, 0, 1, 0, 0], xs: &[0, 0, 1, 1, 2], ys: &[0, 1, 2, 3, 2], k: 1 };
    let (mut symbols, mut figures, mut work) = ([9; 5], [9; 3], [7; WORKING_SPACE + 1]);
    assert_eq!(vakhudle::best(&code, &[2, 2, 2, 0, 2], &[1, 2, 3, 4, 5], 1, &mut symbols, &mut figures, &mut work), Ok(0));
    assert_eq!((symbols, figures), ([2; 5], [4, 1, 0]));
    assert_eq!((&work[..WORKING_SPACE], work[WORKING_SPACE]), (&[0; WORKING_SPACE][..], 7));
}

/// A table of how often the word that was sent comes back from a daily block with so many errors:
///
///     cargo test --release --test best -- --ignored --nocapture
///
/// by Best within one try and within all 65,535, by Correct, and by Rebuild from the 60 most trusted places that are not dependent.
#[test]
#[ignore = "makes a table"]
fn words_that_come_back() {
    const BLOCKS: usize = 4_000;
    let (code, random) = (daily(), &mut Random(7));
    println!("{BLOCKS} words in each row. A wrong symbol has a trust of 0 to 127, a right one of 128 to 255, or once in four times any.\n");
    println!("| errors | Best, 65,535 tries | Best, 1 try | Correct | Rebuild from the 60 most trusted |");
    println!("|---|---|---|---|---|");
    for errors in 0..=12 {
        let mut counts = [0; 4];
        for _ in 0..BLOCKS {
            let (received, sent, trusts) = block(&code, errors, random);
            let (mut word, mut work) = (vec![0; code.n()], vec![0; WORKING_SPACE]);
            let mut count = |i: usize, word: &[u8]| counts[i] += (word == sent) as usize;
            for (i, budget) in [MOST_TRIES, 1].into_iter().enumerate() {
                vakhudle::best(&code.code(), &received, &trusts, budget, &mut word, &mut [0; FIGURES], &mut work).unwrap();
                count(i, &word);
            }
            if vakhudle::correct(&code.code(), &received, &mut word, &mut work).is_ok() {
                count(2, &word);
            }
            let mut places = vec![0; code.k];
            vakhudle::pick(&code.code(), &ranking(&trusts), &mut places, &mut work).unwrap();
            vakhudle::rebuild(&code.code(), &places, &symbols_at(&received, &places), &mut word, &mut work).unwrap();
            count(3, &word);
        }
        let shares = counts.map(|count| format!("{:.1} %", count as f64 * 100.0 / BLOCKS as f64));
        println!("| {errors} | {} |", shares.join(" | "));
    }
}
