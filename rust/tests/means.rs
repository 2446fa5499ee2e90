//! Hourly means against a separate sum for each hour.
mod common;
use common::{agree, Call};
use vakhudle::plain::{fast, hours, Random};
use vakhudle::{means, Answer, ABSENT};

#[derive(Clone, Debug)]
struct Means {
    stamps: Vec<u32>,
    readings: Vec<i16>,
    first_hour: u32,
    hours: usize,
}

impl Means {
    /// Hours with few, enough and all readings, at any minutes; readings of all kinds.
    fn random(random: &mut Random) -> Self {
        let first_hour = match random.below(4) {
            0 => 0,
            1 => 71_000_000,
            _ => random.below(71_000_001) as u32,
        };
        let hours = match random.below(8) {
            0 => 0,
            1 => 153,
            2 => 1,
            _ => random.below(30) as usize,
        };
        let (mut stamps, mut readings) = (Vec::new(), Vec::new());
        for hour in 0..hours as u32 {
            let count = match random.below(7) {
                0 => 0,
                1 => 44,
                2 => 45,
                3 => 60,
                4 => random.between(44, 60),
                _ => random.between(0, 60),
            } as usize;
            let mut minutes: Vec<u32> = (1..=60).collect();
            random.shuffle(&mut minutes);
            minutes.truncate(count);
            minutes.sort();
            let (low, high) = random.pick(&[(-2_000, 20_000), (-2, 2), (-1, 0), (0, 1), (-2_000, -1_999), (19_999, 20_000), (-2_000, 0)]);
            for minute in minutes {
                stamps.push((first_hour + hour) * 60 + minute);
                readings.push(random.between(low, high) as i16);
            }
        }
        Means { stamps, readings, first_hour, hours }
    }

    fn result(&self, random: &mut Random) -> (Answer, Vec<i16>) {
        let Means { stamps, readings, first_hour, hours } = self;
        let (answer, lent) = agree(
            *hours,
            random,
            |out| means(stamps, readings, *first_hour, out),
            |out| hours::means(stamps, readings, *first_hour, out),
            |out| fast::means(stamps, readings, *first_hour, out),
        );
        (answer, lent.content().to_vec())
    }
}

impl Call for Means {
    const ORDER: &'static [u8] = &[8, 19, 18, 19, 16];

    fn spoil(&mut self, entry: usize, random: &mut Random) -> bool {
        let count = self.stamps.len();
        let some = random.below(count.max(1) as u64) as usize;
        match entry {
            0 => match random.below(4) {
                0 => self.hours = random.pick(&[154, 155, 300]),
                1 => self.stamps.push(u32::MAX),
                2 => self.readings.push(0),
                _ if count == 0 => self.readings.push(0),
                _ => self.stamps.truncate(some),
            },
            1 => self.first_hour = random.pick(&[71_000_001, 71_582_787, 71_582_788, 71_582_789, 1 << 31, u32::MAX]),
            2 if count < 2 => return false,
            2 => {
                let later = random.between(1, count as i64 - 1) as usize;
                self.stamps[later] = match random.below(3) {
                    0 => self.stamps[later - 1],
                    1 => self.stamps[later - 1].saturating_sub(1),
                    _ => self.stamps[0],
                };
            }
            3 if count == 0 => return false,
            3 if self.first_hour == 0 && random.once_in(2) => self.stamps[0] = 0,
            3 if self.first_hour > 0 && random.once_in(2) => {
                self.stamps[0] = random.pick(&[self.first_hour * 60, (self.first_hour - 1) * 60 + 1, 0]);
            }
            3 => {
                let end = (self.first_hour + self.hours as u32) * 60;
                self.stamps[count - 1] = random.pick(&[end + 1, end + 2, end + 60, end + 61, u32::MAX]);
            }
            _ if count == 0 => return false,
            _ => self.readings[some] = random.pick(&[-2_001, 20_001, ABSENT, 32_766, i16::MIN]),
        }
        true
    }

    fn run(&self, random: &mut Random) -> Answer {
        self.result(random).0
    }
}

/// One hour whose readings sum to `sum`.
fn one_hour(count: usize, sum: i64) -> Means {
    let readings = (0..count as i64).map(|i| (sum.div_euclid(count as i64) + (i < sum.rem_euclid(count as i64)) as i64) as i16).collect();
    Means { stamps: (601..=600 + count as u32).collect(), readings, first_hour: 10, hours: 1 }
}

#[test]
fn random_hours() {
    let mut random = Random(41);
    for _ in 0..1500 {
        let call = Means::random(&mut random);
        assert_eq!(call.run(&mut random), Ok(0), "{call:?}");
    }
}

#[test]
fn spoilt_calls() {
    let mut random = Random(42);
    for _ in 0..600 {
        let call = Means::random(&mut random);
        common::spoil_all(&call, &mut random);
    }
}

/// Every sum near zero and near the ends, for every count from too few to a full hour: halves of both signs are among them.
#[test]
fn every_rounding() {
    let mut random = Random(43);
    for count in 43..=60i64 {
        for sum in (-150..=150).chain(-2_000 * count..=-2_000 * count + 70).chain(20_000 * count - 70..=20_000 * count) {
            let expected = if count < 45 { ABSENT } else { (sum as f64 / count as f64).round() as i16 };
            assert_eq!(one_hour(count as usize, sum).result(&mut random), (Ok(0), vec![expected]), "{sum} over {count}");
        }
    }
}

#[test]
fn numbers_of_hours_and_first_hours() {
    let mut random = Random(44);
    for hours in (0..=160).chain([255, 256, 65_536]) {
        for first_hour in [0, 1, 71_000_000, 71_000_001, u32::MAX] {
            let expected = if hours > 153 {
                Err(8)
            } else if first_hour > 71_000_000 {
                Err(19)
            } else {
                Ok(0)
            };
            let mut call = Means { stamps: vec![], readings: vec![], first_hour, hours };
            let (answer, written) = call.result(&mut random);
            assert_eq!(answer, expected);
            assert!(answer.is_err() || written == vec![ABSENT; hours]);
            // a full first or last hour
            if expected == Ok(0) && hours > 0 {
                for hour in [0, hours as u32 - 1] {
                    call.stamps = (1..=60).map(|i| (first_hour + hour) * 60 + i).collect();
                    call.readings = vec![-7; 60];
                    let (answer, written) = call.result(&mut random);
                    assert_eq!((answer, written[hour as usize]), (Ok(0), -7));
                    assert!(written.iter().enumerate().all(|(h, &m)| h == hour as usize || m == ABSENT));
                }
            }
        }
    }
}

/// The first and last stamps of the hours, those just outside, and the last stamp of all: hour h holds 60 h + 1 to 60 h + 60, so stamp 0 is in none.
#[test]
fn stamps_at_the_ends() {
    let mut random = Random(45);
    for first_hour in [0, 1, 35_000_000, 71_000_000] {
        for hours in [0usize, 1, 2, 152, 153] {
            let (start, end) = (first_hour as u64 * 60, (first_hour as u64 + hours as u64) * 60);
            let near = |stamp: u64| [stamp.saturating_sub(1), stamp, stamp + 1];
            for stamp in [near(0), near(60), near(start), near(start + 60), near(end), near((1 << 32) - 2)].concat() {
                let call = Means { stamps: vec![stamp as u32], readings: vec![1], first_hour, hours };
                let expected = if start < stamp && stamp <= end { Ok(0) } else { Err(19) };
                assert_eq!(call.run(&mut random), expected, "{call:?}");
            }
        }
    }
}

/// The minutes on both sides of an hour's end, each with 44 more of its hour: the 60th is the earlier hour's 45th reading, the 61st the later one's.
#[test]
fn last_minute_of_an_hour() {
    let mut random = Random(48);
    for first_hour in [0, 1, 70_999_999, 71_000_000] {
        for hours in [2, 3, 153] {
            for hour in [first_hour, first_hour + hours as u32 - 2] {
                let (end, at) = (60 * (hour + 1), (hour - first_hour) as usize);
                let mut expected = vec![ABSENT; hours];
                let mut call = Means { stamps: (end - 44..=end).collect(), readings: vec![3; 45], first_hour, hours };
                expected[at] = 3;
                assert_eq!(call.result(&mut random), (Ok(0), expected.clone()));
                call.stamps = (end - 44..=end + 45).collect();
                call.readings = [[3; 45], [-4; 45]].concat();
                expected[at + 1] = -4;
                assert_eq!(call.result(&mut random), (Ok(0), expected.clone()));
                // one minute less on either side of the end
                call.stamps.remove(44);
                call.readings.remove(44);
                assert_eq!(call.result(&mut random).1[at..at + 2], [ABSENT, -4]);
                call.stamps.remove(44);
                call.readings.remove(44);
                assert_eq!(call.result(&mut random).1[at..at + 2], [ABSENT, ABSENT]);
            }
        }
    }
}

/// Stamp 0 gives 19 whatever the first hour, after 18 and before 16.
#[test]
fn stamp_0() {
    let mut random = Random(49);
    for first_hour in [0, 1, 71_000_000] {
        for hours in [0, 1, 153] {
            let mut call = Means { stamps: vec![0], readings: vec![-2_001], first_hour, hours };
            assert_eq!(call.run(&mut random), Err(19));
            call.stamps.push(0);
            call.readings.push(1);
            assert_eq!(call.run(&mut random), Err(18));
        }
    }
}

/// Each number is sought over the whole list before the next: a late stamp out of order goes before an early one out of the hours.
#[test]
fn whole_list_first() {
    let mut random = Random(46);
    let base = one_hour(60, 30);
    for late in 1..60 {
        let mut call = base.clone();
        call.readings[0] = ABSENT;
        assert_eq!(call.run(&mut random), Err(16));
        call.stamps[59] = u32::MAX;
        assert_eq!(call.run(&mut random), Err(19));
        call.stamps[late] = call.stamps[late - 1];
        assert_eq!(call.run(&mut random), Err(18));
        call.first_hour = 71_000_001;
        assert_eq!(call.run(&mut random), Err(19));
        call.hours = 154;
        assert_eq!(call.run(&mut random), Err(8));
    }
}

#[test]
fn known_cases() {
    let mut random = Random(47);
    for (count, sum, mean) in [(60, 30, 1), (60, 29, 0), (60, -30, -1), (44, 44, ABSENT), (45, 45, 1)] {
        assert_eq!(one_hour(count, sum).result(&mut random), (Ok(0), vec![mean]));
    }
}
