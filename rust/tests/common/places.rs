//! The operations on chosen places: their calls, acceptable and spoilt, and choices of places.
use super::{above, agree_with_work, other_length, Call, Filler, OwnCode, FIELDS};
use std::fmt::Debug;
use std::marker::PhantomData;
use vakhudle::plain::field::{is_field, power, product, size, width};
use vakhudle::plain::{code, curve, fast, places as simple, Random};
use vakhudle::{Answer, Code, WORKING_SPACE};

/// An implementation of an operation on a code: places, symbols, the output, the working space.
pub type Run<T> = fn(&Code, &[u16], &[u8], &mut [T], &mut [u8]) -> Answer;

/// One of the operations that are lent a working space.
pub trait Operation: Clone + Debug {
    type Out: Filler + 'static;
    /// The refusals in the order in which they are sought.
    const ORDER: &'static [u8];
    /// The proved one, then the others.
    const RUNS: &'static [Run<Self::Out>];
    /// How long the output is.
    const ROOM: fn(&OwnCode) -> usize;
    const HAS_PLACES: bool = has(Self::ORDER, 9);
    const HAS_SYMBOLS: bool = has(Self::ORDER, 11);
    /// Whether it takes k places and no other number.
    const ONLY_K: bool = Self::HAS_PLACES && !has(Self::ORDER, 13);
    /// Whether it takes dependent places and no others.
    const ONLY_DEPENDENT: bool = has(Self::ORDER, 15);
}

const fn has(order: &[u8], number: u8) -> bool {
    let mut i = 0;
    while i < order.len() && order[i] != number {
        i += 1;
    }
    i < order.len()
}

macro_rules! operations {
    ($($name:ident: $out:ty, $order:expr, $room:expr, $runs:expr;)*) => {$(
        #[derive(Clone, Debug)]
        pub struct $name;

        impl Operation for $name {
            type Out = $out;
            const ORDER: &'static [u8] = &$order;
            const RUNS: &'static [Run<$out>] = &$runs;
            const ROOM: fn(&OwnCode) -> usize = $room;
        }
    )*};
}

operations! {
    Recover: u8, [1, 2, 3, 4, 5, 6, 7, 8, 11, 14], |code| code.k,
        [|code, _, symbols, out, work| vakhudle::recover(code, symbols, out, work), |code, _, symbols, out, work| simple::recover(code, symbols, out, work)];
    Function: u8, [1, 2, 3, 4, 5, 6, 7, 8, 9, 10, 11, 12], |code| code.k, [vakhudle::systematic_function, simple::systematic_function];
    Word: u8, [1, 2, 3, 4, 5, 6, 7, 8, 9, 10, 11, 12], OwnCode::n,
        [vakhudle::systematic_word, simple::systematic_word, fast::systematic_word];
    Matrix: u8, [1, 2, 3, 4, 5, 6, 7, 8, 9, 10, 12], |code| code.k * code.n(),
        [
            |code, places, _, out, work| vakhudle::matrix(code, places, out, work),
            |code, places, _, out, work| simple::matrix(code, places, out, work),
            |code, places, _, out, work| fast::matrix(code, places, out, work),
        ];
    Relation: u8, [1, 2, 3, 4, 5, 6, 7, 8, 9, 10, 15], |code| code.k,
        [|code, places, _, out, work| vakhudle::relation(code, places, out, work), |code, places, _, out, work| simple::relation(code, places, out, work)];
    Pick: u16, [1, 2, 3, 4, 5, 6, 7, 8, 9, 10, 13, 12], |code| code.k,
        [
            |code, ranked, _, out, work| vakhudle::pick(code, ranked, out, work),
            |code, ranked, _, out, work| simple::pick(code, ranked, out, work),
            |code, ranked, _, out, work| fast::pick(code, ranked, out, work),
        ];
    Rebuild: u8, [1, 2, 3, 4, 5, 6, 7, 8, 9, 10, 11, 13, 12, 14], OwnCode::n, [vakhudle::rebuild, simple::rebuild, fast::rebuild];
    Correct: u8, [1, 2, 3, 4, 5, 6, 7, 8, 11, 21], OwnCode::n,
        [
            |code, _, received, out, work| vakhudle::correct(code, received, out, work),
            |code, _, received, out, work| fast::correct(code, received, out, work),
            |code, _, received, out, work| if has_few_words(code) { simple::correct } else { fast::correct }(code, received, out, work),
        ];
}

/// Whether all codewords can be searched.
fn has_few_words(code: &Code) -> bool {
    is_field(code.field) && code.k <= 6 && code.k * width(code.field) <= 12
}

/// A call of an operation. Those that take no places, or no symbols, leave these lists empty.
#[derive(Clone, Debug)]
pub struct Job<O: Operation> {
    pub code: OwnCode,
    pub places: Vec<u16>,
    pub symbols: Vec<u8>,
    pub room: usize,
    pub work: usize,
    /// A dependent choice, if one was found, to spoil the call with.
    pub dependent: Option<Vec<u16>>,
    pub operation: PhantomData<O>,
}

impl<O: Operation> Job<O> {
    pub fn new(code: &OwnCode, places: &[u16], symbols: &[u8]) -> Self {
        Job {
            room: (O::ROOM)(code),
            code: code.clone(),
            places: if O::HAS_PLACES { places.to_vec() } else { vec![] },
            symbols: if O::HAS_SYMBOLS { symbols.to_vec() } else { vec![] },
            // some are longer than need be
            work: WORKING_SPACE + code.k % 3,
            dependent: None,
            operation: PhantomData,
        }
    }

    /// With the symbols that the word has at the places, or all of them.
    pub fn of_word(code: &OwnCode, places: &[u16], word: &[u8]) -> Self {
        Job::new(code, places, &if O::HAS_PLACES { symbols_at(word, places) } else { word.to_vec() })
    }

    /// An acceptable call, if one is found: a dependent choice may be hard to find.
    pub fn acceptable(code: &OwnCode, random: &mut Random) -> Option<Self> {
        let usable = usable_choice(code, random);
        let word = word_of(code, &usable, &random.symbols(code.field, code.k));
        let dependent = dependent_choice(code, 20, random);
        let mut places = if O::ONLY_DEPENDENT { dependent.clone()? } else { usable };
        if O::HAS_PLACES && !O::ONLY_K {
            let count = random.between(code.k as i64, code.n() as i64) as usize;
            while places.len() < count {
                places.push(another(&places, code.n(), random));
            }
        }
        Some(Job { dependent, ..Job::of_word(code, &places, &word) })
    }

    /// The answer of all implementations, and what is written where it is accepted.
    pub fn result(&self, random: &mut Random) -> (Answer, Vec<O::Out>) {
        let (code, places, symbols) = (&self.code.code(), &self.places[..], &self.symbols[..]);
        let (answer, out) = agree_with_work([self.room, self.work], random, O::RUNS, |run, out, work| run(code, places, symbols, out, work));
        (answer, if answer.is_ok() { out.content().to_vec() } else { vec![] })
    }

    /// Changes one symbol so that no codeword agrees. Where all other places leave two codewords for it, that isn't so, and another is tried.
    fn contradict(&mut self, random: &mut Random) -> bool {
        let (n, k, q) = (self.code.n(), self.code.k, self.code.size() as u64);
        if O::HAS_PLACES && self.places.len() == k {
            let word = word_of(&self.code, &self.places, &self.symbols);
            let place = another(&self.places, n, random);
            self.places.push(place);
            self.symbols.push(word[place as usize - 1]);
        }
        let places = if self.places.is_empty() { (1..=n as u16).collect() } else { self.places.clone() };
        for _ in 0..20 {
            let i = random.below(places.len() as u64) as usize;
            let others: Vec<u16> = places.iter().copied().filter(|&p| p != places[i]).collect();
            if simple::rank(&self.code.code(), &others) == k {
                self.symbols[i] ^= random.between(1, q as i64 - 1) as u8;
                return true;
            }
        }
        false
    }

    /// Changes one symbol more than can be put right, so that no codeword is near. Where n − k is 1 the word may still be a codeword.
    fn stray(&mut self, random: &mut Random) -> bool {
        let (code, work) = (self.code.code(), &mut [0; WORKING_SPACE]);
        let mut word = vec![0; self.code.n()];
        fast::correct(&code, &self.symbols, &mut word, work).unwrap();
        self.symbols = with_errors(&self.code, &word, &some_places(self.code.n(), simple::radius(&code) + 1, random), random);
        self.code.n() - code.k > 1 || simple::recover(&code, &self.symbols, &mut word[..code.k], work).is_err()
    }
}

impl<O: Operation> Job<O> {
    fn spoil_length(&mut self, random: &mut Random) {
        let (n, k) = (self.code.n(), self.code.k);
        match random.below(4) {
            0 if O::HAS_SYMBOLS => self.symbols.resize(other_length(self.symbols.len(), random), 0),
            1 if O::HAS_PLACES => {
                let length = if O::ONLY_K { other_length(k, random) } else { n + random.pick(&[1, 2, 40, 300]) };
                // one by one they are right
                self.places = (0..length).map(|i| (i % n) as u16 + 1).collect();
                if O::HAS_SYMBOLS && !O::ONLY_K {
                    self.symbols.resize(length, 0);
                }
            }
            2 => self.work = random.pick(&[0, 1, 292, 2_048, 4_096, 8_191]),
            _ => self.room = other_length(self.room, random),
        }
    }

    /// Its choice is dependent now, if there is such a choice.
    fn spoil_choice(&mut self) -> bool {
        let Some(choice) = &self.dependent else { return false };
        self.places = choice.clone();
        if O::HAS_SYMBOLS {
            self.symbols.resize(self.code.k, 0);
        }
        true
    }
}

impl<O: Operation> Call for Job<O> {
    const ORDER: &'static [u8] = O::ORDER;

    fn spoil(&mut self, entry: usize, random: &mut Random) -> bool {
        let (n, k) = (self.code.n(), self.code.k);
        match O::ORDER[entry] {
            8 => self.spoil_length(random),
            9 | 11 if self.places.is_empty() && self.symbols.is_empty() => return false,
            9 => {
                let i = random.below(self.places.len() as u64) as usize;
                // the last ones look right when cut to 8 bits
                self.places[i] = random.pick(&[0, n as u16 + 1, 289, 290, 65_535, 256 * (n as u16 / 256 + 1) + 1, 0x8001, self.places[i] | 0x400]);
            }
            10 if self.places.len() < 2 => return false,
            10 => {
                let count = self.places.len() as u64;
                let i = random.below(count);
                let j = (i + 1 + random.below(count - 1)) % count;
                self.places[i as usize] = self.places[j as usize];
            }
            11 if self.code.size() == 256 => return false,
            11 => {
                let i = random.below(self.symbols.len() as u64) as usize;
                self.symbols[i] = above(self.code.size(), random);
            }
            12 => return self.spoil_choice(),
            13 => {
                let count = random.below(k as u64) as usize;
                self.places.truncate(count);
                self.symbols.truncate(count);
            }
            14 => return self.contradict(random),
            // any k − 1 places of a dependent choice and one more are usable
            15 => self.places[k - 1] = another(&self.places, n, random),
            21 => return self.stray(random),
            number => return self.code.spoil(number, random),
        }
        true
    }

    fn run(&self, random: &mut Random) -> Answer {
        self.result(random).0
    }
}

/// A place that isn't in the list.
pub fn another(places: &[u16], n: usize, random: &mut Random) -> u16 {
    let rest: Vec<u16> = (1..=n as u16).filter(|p| !places.contains(p)).collect();
    random.pick(&rest)
}

/// Different places at random.
pub fn some_places(n: usize, count: usize, random: &mut Random) -> Vec<u16> {
    let mut places: Vec<u16> = (1..=n as u16).collect();
    random.shuffle(&mut places);
    places.truncate(count);
    places
}

pub fn usable_choice(code: &OwnCode, random: &mut Random) -> Vec<u16> {
    let mut places = some_places(code.n(), code.k, random);
    if simple::rank(&code.code(), &places) < code.k {
        places[code.k - 1] = another(&places, code.n(), random);
    }
    places
}

/// Looks for a dependent choice: one function vanishes at k − 1 places, and often at one place more.
pub fn dependent_choice(code: &OwnCode, tries: usize, random: &mut Random) -> Option<Vec<u16>> {
    (0..tries).find_map(|_| {
        let mut places = some_places(code.n(), code.k - 1, random);
        let f = simple::only_zero_function(&code.code(), &places)?;
        let zero = |&p: &u16| code::value(code.field, &f, code.xs[p as usize - 1], code.ys[p as usize - 1]) == 0;
        places.push((1..=code.n() as u16).filter(|p| !places.contains(p)).find(zero)?);
        random.shuffle(&mut places);
        Some(places)
    })
}

pub fn word_of(code: &OwnCode, places: &[u16], message: &[u8]) -> Vec<u8> {
    let mut word = vec![0; code.n()];
    simple::systematic_word(&code.code(), places, message, &mut word, &mut [0; WORKING_SPACE]).unwrap();
    word
}

/// The word with another symbol at each of these places.
pub fn with_errors(code: &OwnCode, word: &[u8], places: &[u16], random: &mut Random) -> Vec<u8> {
    let mut received = word.to_vec();
    for &p in places {
        received[p as usize - 1] ^= random.between(1, code.size() as i64 - 1) as u8;
    }
    received
}

pub fn symbols_at(word: &[u8], places: &[u16]) -> Vec<u8> {
    places.iter().map(|&p| word[p as usize - 1]).collect()
}

/// The coefficient of largest weight that isn't zero.
pub fn leading(function: &[u8]) -> Option<u8> {
    function.iter().copied().rfind(|&c| c != 0)
}

/// The curve 0,0,1,0,0 over 4 elements.
pub fn curve_a(k: usize) -> OwnCode {
    OwnCode::whole(2, [0, 0, 1, 0, 0], k)
}

/// The daily block: 80 places, of which 60 give the rest.
pub fn daily() -> OwnCode {
    OwnCode::whole(6, [0, 0, 1, 0, 0], 60)
}

/// Every curve over a field whose index passes the filter, with all its points, if they are two or more.
pub fn whole_codes(field: u8, filter: impl Fn(u32) -> bool) -> impl Iterator<Item = OwnCode> {
    (0..1u32 << (5 * field)).filter(move |&i| filter(i)).filter_map(move |i| {
        let curve = [0, 1, 2, 3, 4].map(|j| (i >> (j * field) & ((1 << field) - 1)) as u8);
        let code = OwnCode::whole(field, curve, 1);
        (!curve::is_singular(field, curve) && code.n() >= 2).then_some(code)
    })
}

/// The sum of two points in the curve's group; `None` is the point at infinity.
fn sum(field: u8, [g1, g2, g3, g4, _]: [u8; 5], a: Option<(u8, u8)>, b: Option<(u8, u8)>) -> Option<(u8, u8)> {
    let p = |a, b| product(field, a, b);
    let over = |a, b| p(a, power(field, b, size(field) - 2));
    let (Some((x1, y1)), Some((x2, y2))) = (a, b) else {
        return a.or(b);
    };
    let slope = if x1 != x2 {
        over(y1 ^ y2, x1 ^ x2)
    } else if y2 == y1 ^ p(g1, x1) ^ g3 {
        return None;
    } else {
        over(p(x1, x1) ^ g4 ^ p(g1, y1), p(g1, x1) ^ g3)
    };
    let x = p(slope, slope) ^ p(g1, slope) ^ g2 ^ x1 ^ x2;
    Some((x, p(slope, x1 ^ x) ^ y1 ^ p(g1, x) ^ g3))
}

/// Places are dependent exactly if their points add up to zero.
pub fn adds_up_to_zero(code: &OwnCode, places: &[u16]) -> bool {
    let points = places.iter().map(|&p| Some((code.xs[p as usize - 1], code.ys[p as usize - 1])));
    points.fold(None, |a, b| sum(code.field, code.curve, a, b)).is_none()
}

/// Every choice of every accepted curve over 4 elements with all its points, for every dimension. The test answers whether the choice is dependent.
pub fn every_choice_over_4_elements(random: &mut Random, mut is_dependent: impl FnMut(&OwnCode, &[u16], &mut Random) -> bool) {
    let (mut choices, mut dependent) = (0, 0);
    for mut code in whole_codes(2, |_| true) {
        for k in 1..code.n() {
            code.k = k;
            for set in (0..1u32 << code.n()).filter(|set| set.count_ones() as usize == k) {
                let mut places: Vec<u16> = (1..=code.n() as u16).filter(|p| set >> (p - 1) & 1 == 1).collect();
                random.shuffle(&mut places);
                choices += 1;
                dependent += is_dependent(&code, &places, random) as u32;
            }
        }
    }
    assert_eq!((choices, dependent), (25_808, 3_440));
}

/// Choices of random codes over every field, so many in the small ones and so many in the large, and dependent ones made on purpose.
pub fn choices_of_random_codes(random: &mut Random, [small, large]: [usize; 2], mut is_dependent: impl FnMut(&OwnCode, &[u16], &mut Random) -> bool) {
    for field in FIELDS {
        let mut dependent = 0;
        let count = if field < 7 { small } else { large };
        for _ in 0..count {
            let code = OwnCode::random(field, random);
            is_dependent(&code, &some_places(code.n(), code.k, random), random);
            if let Some(places) = dependent_choice(&code, 3, random) {
                assert!(is_dependent(&code, &places, random));
                dependent += 1;
            }
        }
        assert!(dependent > count / 6, "field {field}: {dependent}");
    }
}
