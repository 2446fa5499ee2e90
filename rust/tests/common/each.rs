//! The tests that each operation on chosen places has.
use super::places::{curve_a, daily, some_places, usable_choice, whole_codes, word_of, Job, Operation};
use super::{above, spoil_all, trials, Call, OwnCode, FIELDS, FIELDS_OF_256};
use vakhudle::plain::{code, Random};
use vakhudle::WORKING_SPACE;

/// These tests for one or more operations.
macro_rules! tests_of_each {
    ($($operation:ident),*) => {
        $crate::common::each::tests_of_each! { spoilt_calls [$($operation)*] }
        $crate::common::each::tests_of_each! { a_fault_at_every_index [$($operation)*] }
        $crate::common::each::tests_of_each! { lengths_of_the_working_space [$($operation)*] }
        $crate::common::each::tests_of_each! { bytes_at_random [$($operation)*] }
        $crate::common::each::tests_of_each! { empty_lists [$($operation)*] }
    };
    ($test:ident [$($operation:ident)*]) => {
        #[test]
        fn $test() {
            $($crate::common::each::$test::<$operation>();)*
        }
    };
}
pub(crate) use tests_of_each;

/// Every single fault and all pairs of faults of a call on the code, if one is found. Answers whether there was a dependent choice to try.
fn spoil_at<O: Operation>(code: &OwnCode, random: &mut Random) -> bool {
    let job = Job::<O>::acceptable(code, random);
    job.iter().for_each(|job| spoil_all(job, random));
    job.is_some_and(|job| job.dependent.is_some())
}

pub fn spoilt_calls<O: Operation>() {
    let random = &mut Random(69);
    for (field, count) in trials([150, 150, 150, 100, 60, 25, 10, 10]) {
        let dependent = (0..count).filter(|_| spoil_at::<O>(&OwnCode::random(field, random), random)).count();
        assert!(dependent > count / 8, "field {field}: {dependent} of {count}");
    }
    for _ in 0..5 {
        assert!(spoil_at::<O>(&daily(), random));
    }
    for field in FIELDS_OF_256 {
        let full = OwnCode::fullest(field, 1, random);
        for k in [2, 40, 287] {
            spoil_at::<O>(&OwnCode { k, ..full.clone() }, random);
        }
    }
}

/// The list with a number outside 1 to n at each index, and with the same number at two indices; beside each the refusal.
fn spoilt_lists(places: &[u16], n: usize, random: &mut Random) -> Vec<(Vec<u16>, u8)> {
    let mut lists = vec![];
    for i in 0..places.len() {
        let mut list = |new, number| {
            let mut list = places.to_vec();
            list[i] = new;
            lists.push((list, number));
        };
        [0, n as u16 + 1, 65_535].into_iter().for_each(|new| list(new, 9));
        for j in 0..places.len() {
            if j != i && (places.len() < 20 || random.once_in(places.len() as u64 / 4)) {
                list(places[j], 10);
            }
        }
    }
    lists
}

/// A fault at every index by itself: each place out of range, two places the same, each symbol out of range.
pub fn a_fault_at_every_index<O: Operation>() {
    let random = &mut Random(70);
    for field in FIELDS {
        let code = OwnCode::random(field, random);
        let n = code.n();
        let choice = usable_choice(&code, random);
        let word = word_of(&code, &choice, &random.symbols(field, code.k));
        let job = Job::<O>::of_word(&code, &if O::ONLY_K { choice } else { some_places(n, n, random) }, &word);
        for (places, number) in spoilt_lists(&job.places, n, random) {
            assert_eq!(Job { places, ..job.clone() }.run(random), Err(number));
        }
        // every byte is below 256
        for i in (0..job.symbols.len()).filter(|_| code.size() < 256) {
            let mut job = job.clone();
            job.symbols[i] = above(code.size(), random);
            assert_eq!(job.run(random), Err(11));
        }
    }
}

/// One byte too few of working space is refused; what is past its first 8,192 bytes stays.
pub fn lengths_of_the_working_space<O: Operation>() {
    let random = &mut Random(71);
    for code in [curve_a(5), daily()] {
        let job = (0..9).find_map(|_| Job::<O>::acceptable(&code, random)).unwrap();
        for work in [0, 1, 584, 2_048, 4_096, 8_190, 8_191, 8_192, 8_193, 8_200, 10_000, 65_536] {
            let expected = if work < WORKING_SPACE { Err(8) } else { Ok(0) };
            assert_eq!(Job { work, ..job.clone() }.run(random), expected);
        }
    }
}

/// Whatever the bytes are, the answer is the definition's.
pub fn bytes_at_random<O: Operation>() {
    let random = &mut Random(72);
    let mut answers = [0; 22];
    for _ in 0..20_000 {
        let mut code = OwnCode::random(2, random);
        if random.once_in(3) {
            code.k = random.below(9) as usize;
        }
        let count = if random.once_in(3) { random.below(10) as usize } else { code.k };
        let places: Vec<u16> = match random.below(3) {
            0 => (0..count).map(|_| random.below(10) as u16).collect(),
            _ => some_places(code.n(), count, random),
        };
        let right = if O::HAS_PLACES { places.len() } else { code.n() };
        let length = if random.once_in(4) { random.below(10) as usize } else { right };
        let symbols: Vec<u8> = (0..length).map(|_| random.below(if length % 2 == 0 { 4 } else { 5 }) as u8).collect();
        let mut job = Job::<O>::new(&code, &places, &symbols);
        if random.once_in(6) {
            job.room = random.below(10) as usize;
        }
        answers[job.run(random).err().unwrap_or(0) as usize] += 1;
    }
    assert!(answers[0] > 40 && O::ORDER[6..].iter().all(|&number| answers[number as usize] > 40), "{answers:?}");
}

pub fn empty_lists<O: Operation>() {
    let random = &mut Random(73);
    let code = curve_a(5);
    let expected = if O::HAS_PLACES && !O::ONLY_K { 13 } else { 8 };
    assert_eq!(Job::<O>::new(&code, &[], &[]).run(random), Err(expected));
    let none = OwnCode { xs: vec![], ys: vec![], ..code };
    assert_eq!(Job::<O> { work: 0, ..Job::new(&none, &[], &[]) }.run(random), Err(4));
}

/// A code with all its functions, zero first, and their codewords.
pub struct Listed {
    pub code: OwnCode,
    pub functions: Vec<Vec<u8>>,
    pub words: Vec<Vec<u8>>,
}

impl Listed {
    /// Of a code over 4 elements.
    pub fn new(code: OwnCode) -> Self {
        let functions: Vec<Vec<u8>> = (0..1u32 << (2 * code.k)).map(|f| (0..code.k).map(|j| (f >> (2 * j) & 3) as u8).collect()).collect();
        let value = |f: &[u8], i| code::value(2, f, code.xs[i], code.ys[i]);
        let words = functions.iter().map(|f| (0..code.n()).map(|i| value(f, i)).collect()).collect();
        Listed { code, functions, words }
    }

    /// The indices of the codewords that have these symbols at these places.
    pub fn agreeing(&self, places: &[u16], symbols: &[u8]) -> Vec<usize> {
        let agrees = |word: &[u8]| places.iter().zip(symbols).all(|(&p, &s)| word[p as usize - 1] == s);
        (0..self.words.len()).filter(|&i| agrees(&self.words[i])).collect()
    }

    /// The indices of the functions but zero itself that are zero at all these places.
    pub fn zero_at(&self, places: &[u16]) -> Vec<usize> {
        self.agreeing(places, &vec![0; places.len()]).split_off(1)
    }
}

/// The definitions themselves: every curve over 4 elements with all its points, every dimension up to 4, and all codewords.
pub fn listed_codes() -> impl Iterator<Item = Listed> {
    let codes = whole_codes(2, |_| true).flat_map(|code| (1..code.n().min(5)).map(move |k| OwnCode { k, ..code.clone() }));
    codes.map(Listed::new)
}

/// Some lists of k different places or more for each of these codes.
pub fn listed_places(random: &mut Random, mut test: impl FnMut(&Listed, Vec<u16>, &mut Random)) {
    for listed in listed_codes() {
        let (n, k) = (listed.code.n(), listed.code.k);
        for _ in 0..8 {
            let places = some_places(n, random.between(k as i64, n as i64) as usize, random);
            test(&listed, places, random);
        }
    }
}
