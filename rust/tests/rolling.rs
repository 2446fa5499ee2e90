//! The rolling day mean against the list of all hours so far.
mod common;
use common::{agree, agree_on_two, other_length, spoil_all, Call, Lent};
use std::collections::HashSet;
use vakhudle::plain::rolling::{is_state, last_hours, next, Run};
use vakhudle::plain::{fast, rolling as simple, Random};
use vakhudle::{rolling, rolling_fresh, Answer, ABSENT, ROLLING_STATE};

const LAST_FIRST_HOUR: u32 = 71_000_000;
const HOUR_NUMBERS: u64 = 1 << 32;

/// One of the implementations.
type Step = fn(&mut [u8], u32, i16, &mut [i16]) -> Answer;

#[derive(Clone, Debug)]
struct Rolling {
    state: Vec<u8>,
    hour: u32,
    mean: i16,
    room: usize,
}

impl Rolling {
    /// A call with the hour that the state asks for.
    fn next(state: &[u8], mean: i16) -> Self {
        Rolling { state: state.to_vec(), hour: next(state) as u32, mean, room: 1 }
    }

    fn random(random: &mut Random) -> Self {
        let mut call = Rolling::next(&any_run(random).state(), any_means(1, random)[0]);
        if next(&call.state) == 0 {
            call.hour = random.below(LAST_FIRST_HOUR as u64 + 1) as u32;
        }
        call
    }

    /// The answer, the state and the rolling mean.
    fn result(&self, random: &mut Random) -> (Answer, Vec<u8>, Vec<i16>) {
        let Rolling { state, hour, mean, room } = self;
        let (state, out) = (Lent::holding(state, random), Lent::new(*room, random));
        let implementations: [Step; 3] = [rolling, simple::rolling, fast::rolling];
        let (answer, state, out) = agree_on_two(state, out, &implementations, |step, state, out| step(state, *hour, *mean, out));
        (answer, state.content().to_vec(), out.content().to_vec())
    }

    fn set_code(&mut self, index: usize, code: u16) {
        self.state[2 * index..2 * index + 2].copy_from_slice(&code.to_le_bytes());
    }

    fn set_next(&mut self, next: u64) {
        self.state[48..56].copy_from_slice(&next.to_le_bytes());
    }
}

impl Call for Rolling {
    const ORDER: &'static [u8] = &[8, 16, 22];

    fn spoil(&mut self, entry: usize, random: &mut Random) -> bool {
        match (Self::ORDER[entry], random.below(6)) {
            (8, 0..3) => self.room = other_length(1, random),
            (8, _) => self.state.resize(other_length(ROLLING_STATE, random), 0),
            (16, _) => self.mean = random.pick(&[-2_001, 20_001, 22_000, 32_766, i16::MIN]),
            (_, 0) if next(&self.state) == 0 => self.hour = random.pick(&[LAST_FIRST_HOUR + 1, LAST_FIRST_HOUR + 2, 1 << 31, u32::MAX]),
            (_, 0) => self.hour = self.hour.wrapping_add(random.pick(&[1, 2, 1 << 16, 1 << 31, u32::MAX - 1, u32::MAX])),
            (_, 1 | 2) => {
                let (above, any) = (random.between(22_001, 32_766) as u16, random.between(32_768, 65_535) as u16);
                self.set_code(random.below(24) as usize, random.pick(&[22_001, 32_766, 32_768, 65_535, above, any]));
            }
            (_, 3) => self.state[56 + random.below(8) as usize] = random.between(1, 255) as u8,
            // the same number in 32 bits
            (_, 4) => self.set_next(next(&self.state) + HOUR_NUMBERS + (next(&self.state) == 0) as u64),
            // a present hour before hour 0
            _ => {
                let next = random.below(24);
                self.set_next(next);
                self.hour = next as u32;
                self.set_code(random.between(next as i64, 23) as usize, random.between(0, 22_000) as u16);
            }
        }
        true
    }

    fn run(&self, random: &mut Random) -> Answer {
        self.result(random).0
    }
}

/// Means in stretches of one kind each: wide and narrow ranges, the ends among them; none, some or all absent.
fn any_means(count: usize, random: &mut Random) -> Vec<i16> {
    let mut means = Vec::new();
    while means.len() < count {
        let (low, high) = random.pick(&[(-2_000, 20_000), (-2, 2), (-1, 0), (0, 1), (-2_000, -1_999), (19_999, 20_000), (-2_000, 0)]);
        let absent = random.pick(&[0, 1, 2, 3, 6, 12]);
        for _ in 0..random.between(1, 40) {
            means.push(if random.below(12) < absent { ABSENT } else { random.between(low, high) as i16 });
        }
    }
    means.truncate(count);
    means
}

fn run_of(first: u32, means: &[i16]) -> Run {
    Run { hours: (first as u64..).zip(means).map(|(hour, &mean)| (hour as u32, mean)).collect() }
}

/// The last day of a run whose last hour is the one before `next`.
fn run_before(next: u64, random: &mut Random) -> Run {
    run_of((next - 24) as u32, &any_means(24, random))
}

/// No hour, a few, or a day of a longer run; there is always a next one.
fn any_run(random: &mut Random) -> Run {
    let any = random.below(LAST_FIRST_HOUR as u64) as u32;
    let first = random.pick(&[0, 1, any, LAST_FIRST_HOUR]);
    match random.below(4) {
        0 => Run::default(),
        1 => run_of(first, &any_means(random.between(1, 23) as usize, random)),
        2 => run_of(first, &any_means(24, random)),
        _ => {
            let any = random.between(24, HOUR_NUMBERS as i64 - 1) as u64;
            run_before(random.pick(&[any, HOUR_NUMBERS - 2, HOUR_NUMBERS - 1]), random)
        }
    }
}

/// The fresh state that all implementations write.
fn fresh_state(random: &mut Random) -> Vec<u8> {
    let (answer, lent) = agree(ROLLING_STATE, random, rolling_fresh, simple::rolling_fresh, fast::rolling_fresh);
    assert_eq!(answer, Ok(0));
    lent.content().to_vec()
}

/// Hands these hours in one after the other, from a fresh state on: each state and rolling mean is that of the list so far. Answers the last state, and all
/// rolling means.
fn follow(first: u32, means: &[i16], random: &mut Random) -> (Vec<u8>, Vec<i16>) {
    let (mut run, mut state, mut rolling_means) = (Run::default(), fresh_state(random), vec![]);
    for &(hour, mean) in &run_of(first, means).hours {
        let expected = run.take(hour, mean).unwrap();
        let (answer, new, written) = Rolling { hour, ..Rolling::next(&state, mean) }.result(random);
        assert_eq!((answer, &new, written), (Ok(0), &run.state(), vec![expected]), "{run:?}");
        rolling_means.push(expected);
        state = new;
    }
    (state, rolling_means)
}

#[test]
fn random_runs() {
    let mut random = Random(151);
    let mut present = 0;
    for count in [1, 17, 18, 23, 24, 25, 26, 48, 49, 1_000].repeat(8) {
        let any = random.below(LAST_FIRST_HOUR as u64) as u32;
        let first = random.pick(&[0, 1, any, LAST_FIRST_HOUR]);
        let means = any_means(count, &mut random);
        present += follow(first, &means, &mut random).1.iter().filter(|&&mean| mean != ABSENT).count();
    }
    assert!((3_000..7_000).contains(&present), "{present}");
}

#[test]
fn spoilt_calls() {
    let mut random = Random(152);
    for _ in 0..3_000 {
        let call = Rolling::random(&mut random);
        spoil_all(&call, &mut random);
    }
}

/// Every sum near zero and near the ends, for every count from too few to a full day: halves of both signs are among them.
#[test]
fn every_rounding() {
    let mut random = Random(153);
    for count in 16..=24i64 {
        for sum in (-60..=60).chain(-2_000 * count..=-2_000 * count + 30).chain(20_000 * count - 30..=20_000 * count) {
            let mut means: Vec<i16> = (0..count).map(|i| (sum.div_euclid(count) + (i < sum.rem_euclid(count)) as i64) as i16).collect();
            means.resize(24, ABSENT);
            random.shuffle(&mut means);
            let expected = if count < 18 { ABSENT } else { (sum as f64 / count as f64).round() as i16 };
            let before = run_of(random.below(1_000) as u32, &means[..23]);
            let (answer, _, written) = Rolling::next(&before.state(), means[23]).result(&mut random);
            assert_eq!((answer, written), (Ok(0), vec![expected]), "{sum} over {count}");
        }
    }
}

/// The means 1, 2, 3 and so on, and the same below zero: from 24 hours on the rolling mean is a half, rounded away from zero.
#[test]
fn numbers_of_hours() {
    let mut random = Random(154);
    for sign in [1, -1] {
        let means: Vec<i16> = (1..=1_000).map(|i| sign * i).collect();
        let (_, rolling_means) = follow(9, &means, &mut random);
        assert_eq!(rolling_means[..17], [ABSENT; 17]);
        // 9.5, 10, 10.5, 11, 11.5, 12, 12.5, 13.5
        assert_eq!(rolling_means[17..25], [10, 10, 11, 11, 12, 12, 13, 14].map(|mean| sign * mean));
        assert!((25..1_000).all(|i| rolling_means[i] == sign * (i as i16 - 10)));
    }
}

/// The 18th present hour gives a mean, which lasts until the first of them falls out of the day.
#[test]
fn seventeen_and_eighteen_present() {
    let mut random = Random(155);
    for gap in 0..=6 {
        let means = [vec![ABSENT; 3], vec![-7; 9], vec![ABSENT; gap], vec![-7; 9], vec![ABSENT; 30]].concat();
        let (_, rolling_means) = follow(0, &means, &mut random);
        let from = 3 + 18 + gap - 1;
        assert!((0..means.len()).all(|i| rolling_means[i] == if (from..3 + 24).contains(&i) { -7 } else { ABSENT }));
    }
    // the hour that comes in is the 18th as the one that falls out was
    let means = [vec![4; 18], vec![ABSENT; 6], vec![4; 18]].concat();
    assert_eq!(follow(0, &means, &mut random).1[17..], [4; 25]);
}

#[test]
fn all_absent() {
    let mut random = Random(156);
    let (state, rolling_means) = follow(5, &[ABSENT; 100], &mut random);
    assert_eq!(rolling_means, [ABSENT; 100]);
    assert_eq!(follow(104, &[ABSENT], &mut random), (state, vec![ABSENT]));
}

/// Whatever came before the last day, and whether it came at all, the state is the same.
#[test]
fn runs_that_end_alike() {
    let mut random = Random(157);
    for _ in 0..50 {
        let day = any_means(24, &mut random);
        let first = random.between(1_000, LAST_FIRST_HOUR as i64) as u32;
        let (state, rolling_means) = follow(first, &day, &mut random);
        for earlier in [1, 2, 23, 24, 60] {
            let means = [any_means(earlier, &mut random), day.clone()].concat();
            let (other, other_means) = follow(first - earlier as u32, &means, &mut random);
            assert_eq!((&other, other_means.last()), (&state, rolling_means.last()));
        }
        let few = random.between(1, 23) as usize;
        let means = [vec![ABSENT; 40], day[..few].to_vec()].concat();
        assert_eq!(follow(first - 40, &means, &mut random).0, follow(first, &day[..few], &mut random).0);
    }
}

/// Each byte of good states replaced by each other value, with the hour that the damaged state asks for.
#[test]
fn every_byte_replaced_by_every_value() {
    let mut random = Random(158);
    let mut runs = vec![Run::default(), run_of(0, &[5]), run_of(0, &[ABSENT]), run_of(LAST_FIRST_HOUR, &[-3])];
    for count in [23, 24, 1_000] {
        runs.extend([0, 1_000].map(|first| run_of(first, &any_means(count, &mut random))));
    }
    runs.extend([HOUR_NUMBERS - 1, HOUR_NUMBERS].map(|next| run_before(next, &mut random)));
    for run in runs {
        let mut accepted = 0;
        for i in 0..64 * 255 {
            let mut state = run.state();
            state[i / 255] ^= (i % 255 + 1) as u8;
            let call = Rolling::next(&state, any_means(1, &mut random)[0]);
            // no hour follows the last of all
            let expected = is_state(&state) && next(&state) < HOUR_NUMBERS;
            assert_eq!(call.run(&mut random), if expected { Ok(0) } else { Err(22) }, "{state:?} of {run:?}");
            accepted += expected as usize;
        }
        assert_eq!(accepted > 0, run.next() < HOUR_NUMBERS);
    }
}

/// All 16-bit codes at every third place of a day, and all means.
#[test]
fn every_value() {
    let mut random = Random(159);
    let day = run_before(500, &mut random).state();
    for index in (0..24).step_by(3) {
        for code in 0..=u16::MAX {
            let mut call = Rolling::next(&day, 0);
            call.set_code(index, code);
            let expected = if code <= 22_000 || code == 32_767 { Ok(0) } else { Err(22) };
            assert_eq!(call.run(&mut random), expected);
        }
    }
    for mean in i16::MIN..=i16::MAX {
        let expected = if (-2_000..=20_000).contains(&mean) || mean == ABSENT { Ok(0) } else { Err(16) };
        assert_eq!(Rolling::next(&day, mean).run(&mut random), expected);
    }
}

/// A fresh state takes any hour up to 71,000,000, and another just the next: also past 71,000,000, up to the last of all.
#[test]
fn hours_at_the_ends() {
    let mut random = Random(160);
    let near = |hour: u64| (hour.saturating_sub(2)..hour + 3).filter(|&hour| hour < HOUR_NUMBERS);
    let hours: Vec<u64> = [0, 24, LAST_FIRST_HOUR as u64, 1 << 31, HOUR_NUMBERS - 1].into_iter().flat_map(near).collect();
    let fresh = fresh_state(&mut random);
    for &hour in &hours {
        let expected = if hour <= LAST_FIRST_HOUR as u64 { Ok(0) } else { Err(22) };
        assert_eq!(Rolling { hour: hour as u32, ..Rolling::next(&fresh, 1) }.run(&mut random), expected, "{hour}");
    }
    for next in hours.iter().copied().chain([HOUR_NUMBERS]).filter(|&next| next > 0) {
        let state = if next < 24 { run_of(0, &any_means(next as usize, &mut random)) } else { run_before(next, &mut random) }.state();
        for &hour in &hours {
            let (answer, new, _) = Rolling { hour: hour as u32, ..Rolling::next(&state, 1) }.result(&mut random);
            assert_eq!(answer, if hour == next { Ok(0) } else { Err(22) }, "{hour} where {next} is the next");
            assert!(answer.is_err() || simple::next(&new) == next + 1);
        }
    }
}

/// 8 goes before 16, and 16 before 22.
#[test]
fn lengths() {
    let mut random = Random(161);
    for length in [0, 1, 32, 48, 56, 63, 64, 65, 66, 128] {
        let expected = if length == ROLLING_STATE { Ok(0) } else { Err(8) };
        assert_eq!(agree(length, &mut random, rolling_fresh, simple::rolling_fresh, fast::rolling_fresh).0, expected);
        for room in [0, 1, 2, 3, 64] {
            for (hour, mean, number) in [(5, 1, 0), (5, 20_001, 16), (6, 1, 22), (6, -2_001, 16)] {
                let mut state = run_of(0, &[1, 2, 3, 4, 5]).state();
                state.resize(length, 0);
                let expected = if (length, room) != (ROLLING_STATE, 1) { 8 } else { number };
                let answer = Rolling { state, hour, mean, room }.run(&mut random);
                assert_eq!(answer, if expected == 0 { Ok(0) } else { Err(expected) });
            }
        }
    }
}

/// Bytes that are nearly a state, or not at all.
#[test]
fn bytes_at_random() {
    let mut random = Random(162);
    let mut answers = [0; 23];
    for i in 0..40_000 {
        let mut call = Rolling::random(&mut random);
        for _ in 0..random.below(3) {
            let (index, next) = (random.below(24) as usize, random.below(30));
            let (code, present) = (random.next() as u16, random.between(0, 22_000) as u16);
            match random.below(6) {
                0 => call.set_code(index, code),
                1 => call.set_code(index, present),
                2 => call.set_code(index, 32_767),
                3 => call.set_next(next),
                4 => call.state[random.below(64) as usize] = random.next() as u8,
                _ => call.state.swap(random.below(64) as usize, random.below(64) as usize),
            }
        }
        if i % 10 == 0 {
            call.state.iter_mut().for_each(|byte| *byte = random.next() as u8);
        }
        if !random.once_in(8) {
            call.hour = next(&call.state) as u32;
        }
        answers[call.run(&mut random).err().unwrap_or(0) as usize] += 1;
    }
    assert!(answers[0] > 4_000 && answers[22] > 4_000 && answers[0] + answers[22] == 40_000, "{answers:?}");
}

#[test]
fn zeros_are_no_state() {
    let mut random = Random(163);
    for hour in [0, 1, 24, LAST_FIRST_HOUR, u32::MAX] {
        for mean in [-2_000, 0, ABSENT] {
            assert_eq!(Rolling { hour, ..Rolling::next(&[0; ROLLING_STATE], mean) }.run(&mut random), Err(22));
        }
    }
}

/// What `is_state` says, by trial: of all states with up to four hours and these means it holds for those that some run gives, and for no other.
#[test]
fn some_run_gives_it() {
    fn extend(run: &Run, given: &mut HashSet<Vec<u8>>) {
        given.insert(run.state());
        let first = if run.hours.is_empty() { 3 } else { run.next() as u32 };
        for hour in run.next() as u32..=first.min(3) {
            for mean in [-2_000, 20_000, ABSENT] {
                let mut run = run.clone();
                run.take(hour, mean).unwrap();
                extend(&run, given);
            }
        }
    }
    let mut given = HashSet::new();
    extend(&Run::default(), &mut given);
    let codes = [0, 22_000, 22_001, 32_766, 32_767, 32_768];
    let mut held = 0;
    for (next, i) in (0..=4u64).flat_map(|next| (0..6usize.pow(4)).map(move |i| (next, i))) {
        let mut call = Rolling::next(&Run::default().state(), 0);
        call.set_next(next);
        (0..4).for_each(|place| call.set_code(place, codes[i / 6usize.pow(place as u32) % 6]));
        assert_eq!(is_state(&call.state), given.contains(&call.state), "{:?}", call.state);
        if is_state(&call.state) {
            held += 1;
            assert_eq!(last_hours(&call.state).state(), call.state);
        }
    }
    assert_eq!(held, given.len());
}

/// The bytes themselves.
#[test]
fn known_cases() {
    let mut random = Random(164);
    let absent = [0xFF, 0x7F];
    let fresh = [&absent.repeat(24)[..], &[0; 16]].concat();
    assert_eq!(fresh_state(&mut random), fresh);
    let one = [&[0, 0], &absent.repeat(23)[..], &[3, 1], &[0; 14]].concat();
    assert_eq!(Rolling { hour: 258, ..Rolling::next(&fresh, -2_000) }.result(&mut random), (Ok(0), one.clone(), vec![ABSENT]));
    // 20,000 is 22,000, and that is 85 · 256 + 240
    let two = [&[240, 85, 0, 0], &absent.repeat(22)[..], &[4, 1], &[0; 14]].concat();
    assert_eq!(Rolling::next(&one, 20_000).result(&mut random), (Ok(0), two.clone(), vec![ABSENT]));
    let three = [&absent[..], &two[..46], &[5, 1], &[0; 14]].concat();
    assert_eq!(Rolling::next(&two, ABSENT).result(&mut random), (Ok(0), three, vec![ABSENT]));
    // the last hour of all, with 24 means of 1
    let day = [209, 7].repeat(24);
    let before = [&day[..], &[255, 255, 255, 255, 0, 0, 0, 0], &[0; 8]].concat();
    let last = [&day[..], &[0, 0, 0, 0, 1, 0, 0, 0], &[0; 8]].concat();
    assert_eq!(Rolling::next(&before, 1).result(&mut random), (Ok(0), last.clone(), vec![1]));
    for hour in [0, 1, u32::MAX] {
        assert_eq!(Rolling { hour, ..Rolling::next(&last, 1) }.run(&mut random), Err(22));
    }
}
