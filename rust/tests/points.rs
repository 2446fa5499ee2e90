//! Points against a search over all (X, Y).
mod common;
use common::{above, any_curve, Call, Lent, FIELDS};
use vakhudle::plain::field::size;
use vakhudle::plain::{curve, fast, Random};
use vakhudle::{points, Answer, MOST_POINTS};

/// Two buffers of the given lengths; the answer, and what was written where it is accepted.
fn run(field: u8, curve: [u8; 5], lengths: [usize; 2], random: &mut Random) -> (Answer, Vec<(u8, u8)>) {
    let before = lengths.map(|n| Lent::<u8>::new(n, random));
    let [mut ours, mut theirs, mut quick] = [(); 3].map(|_| before.clone());
    let answer = {
        let [xs, ys] = &mut ours;
        points(field, curve, xs.slice(), ys.slice())
    };
    for (other, function) in [(&mut theirs, curve::points as fn(u8, [u8; 5], &mut [u8], &mut [u8]) -> Answer), (&mut quick, fast::points)] {
        let [xs, ys] = other;
        assert_eq!(answer, function(field, curve, xs.slice(), ys.slice()), "field {field}, curve {curve:?}");
        for (mine, other) in ours.iter().zip([xs, ys]) {
            assert!(mine.is_all_equal(other), "field {field}, curve {curve:?}");
        }
    }
    assert!(answer.is_ok() || ours.iter().all(Lent::is_unchanged), "a refused call wrote");
    let count = answer.unwrap_or(0) as usize;
    let written = ours[0].content()[..count.min(lengths[0])].iter().copied().zip(ours[1].content().iter().copied()).collect();
    (answer, written)
}

#[derive(Clone, Debug)]
struct Points {
    field: u8,
    curve: [u8; 5],
    lengths: [usize; 2],
}

impl Call for Points {
    const ORDER: &'static [u8] = &[1, 2, 3, 8];

    fn spoil(&mut self, entry: usize, random: &mut Random) -> bool {
        match Self::ORDER[entry] {
            1 => self.field = random.pick(&[0, 1, 10, 11, 128, 255]),
            2 if size(self.field) == 256 => return false,
            2 => self.curve[random.below(5) as usize] = above(size(self.field), random),
            3 => self.curve = common::curve_that(true, self.field, random),
            _ => self.lengths[random.below(2) as usize] = random.pick(&[0, 1, 7, 8, 80, 224, 287, 289, 290, 576]),
        }
        true
    }

    fn run(&self, random: &mut Random) -> Answer {
        run(self.field, self.curve, self.lengths, random).0
    }
}

#[test]
fn every_curve_over_small_fields() {
    let mut random = Random(11);
    let mut counts = [0u32; 289];
    for field in [2u8, 3] {
        for i in 0..1u32 << (5 * field) {
            let curve = [0, 1, 2, 3, 4].map(|j| (i >> (j * field) & ((1 << field) - 1)) as u8);
            if let (Ok(n), _) = run(field, curve, [MOST_POINTS; 2], &mut random) {
                counts[n as usize] += 1;
            }
        }
    }
    // over 4 elements a curve can have no affine point
    assert!(counts[0] > 0 && counts[1] > 0 && counts[8] > 0 && counts[13] > 0 && counts[14] == 0, "{counts:?}");
}

#[test]
fn random_curves_over_every_field() {
    let mut random = Random(12);
    for field in FIELDS {
        for _ in 0..300 {
            let curve = any_curve(field, &mut random);
            let _ = run(field, curve, [MOST_POINTS; 2], &mut random);
        }
    }
}

#[test]
fn spoilt_calls() {
    let mut random = Random(13);
    for field in FIELDS {
        for _ in 0..40 {
            let curve = common::curve_that(false, field, &mut random);
            common::spoil_all(&Points { field, curve, lengths: [MOST_POINTS; 2] }, &mut random);
        }
    }
}

#[test]
fn every_field_number() {
    let mut random = Random(14);
    for field in 0..=255 {
        let expected = if FIELDS.contains(&field) { None } else { Some(1) };
        assert_eq!(run(field, [0, 0, 1, 0, 0], [MOST_POINTS; 2], &mut random).0.err(), expected);
        assert_eq!(run(field, [0, 0, 1, 0, 0], [0; 2], &mut random).0, Err(expected.unwrap_or(8)));
    }
}

#[test]
fn the_fullest_and_the_emptiest_curves_over_256_elements() {
    let mut random = Random(15);
    for field in common::FIELDS_OF_256 {
        let curve = common::fullest_curve(field, &mut random);
        let (answer, written) = run(field, curve, [MOST_POINTS; 2], &mut random);
        assert_eq!((answer, written.len()), (Ok(288), 288));
        assert!(written.windows(2).all(|p| p[0] < p[1]));
        let emptiest = (0..2000).find(|_| {
            let curve = [0, 0, random.between(1, 255) as u8, random.next() as u8, random.next() as u8];
            run(field, curve, [MOST_POINTS; 2], &mut random).0 == Ok(224)
        });
        assert!(emptiest.is_some());
    }
}

#[test]
fn known_cases() {
    let mut random = Random(16);
    let mut whole = |field, curve| run(field, curve, [MOST_POINTS; 2], &mut random);
    assert_eq!(whole(2, [0, 0, 1, 0, 0]), (Ok(8), vec![(0, 0), (0, 1), (1, 2), (1, 3), (2, 2), (2, 3), (3, 2), (3, 3)]));
    let (answer, points) = whole(2, [1, 0, 0, 0, 1]);
    assert_eq!((answer, points[0]), (Ok(7), (0, 1)));
    assert_eq!(whole(2, [0, 0, 1, 0, 2]).0, Ok(0));
    assert_eq!(whole(2, [0; 5]).0, Err(3));
    assert_eq!(whole(6, [0, 0, 1, 0, 0]).0, Ok(80));
}
