//! Two sides of a job over many inputs in turn, each call timed by itself.
use std::hint::black_box;
use std::time::Instant;
use vakhudle::plain::Random;
use vakhudle::Answer;

/// The jobs that were asked for, by a part of their names.
pub struct Bench {
    pub wanted: Vec<String>,
}

/// One line of the table.
pub struct Row {
    name: String,
    /// How many different inputs.
    inputs: usize,
    /// How many times as fast as plain Rust ours must be.
    bar: Option<f64>,
    /// What one call's time is divided by.
    parts: usize,
}

impl Row {
    pub fn new(name: String, inputs: usize) -> Self {
        Row { name, inputs, bar: None, parts: 1 }
    }

    pub fn bar(self, bar: impl Into<Option<f64>>) -> Self {
        Row { bar: bar.into(), ..self }
    }

    pub fn parts(self, parts: usize) -> Self {
        Row { parts, ..self }
    }
}

fn median(mut list: Vec<f64>) -> f64 {
    list.sort_by(f64::total_cmp);
    list[list.len() / 2]
}

/// The time of one call in nanoseconds. The input is copied just before, so that neither side finds it warmer than the other.
fn timed<I: Clone, O: ?Sized>(input: &I, out: &mut O, job: &mut impl FnMut(&I, &mut O) -> Answer) -> (f64, Answer) {
    let input = black_box(input.clone());
    let start = Instant::now();
    let answer = black_box(job(black_box(&input), black_box(out)));
    (start.elapsed().as_secs_f64() * 1e9, answer)
}

impl Bench {
    pub fn heading(&self) {
        println!("| job | ours (ns) | plain Rust (ns) | times as fast | bar | |");
        println!("|---|---|---|---|---|---|");
    }

    /// What is measured where nothing is done; no row's time is without it.
    pub fn empty(&self) {
        let times = (0..1000).map(|_| timed(&(), &mut (), &mut |_, _| Ok(0)).0);
        println!("\nAn empty measurement takes {:.0} ns.", median(times.collect()));
        if let Some(folder) = option_env!("VAKHUDLE_ARCHIVE") {
            println!("The archive measured is not this tree's, but the one in {folder}.");
        }
    }

    /// Both sides fill a buffer of `room` from each input that `make` answers, and must answer and write the same. The side that comes first
    /// changes with every input. Answers the median of our times.
    pub fn compare<I: Clone, T: Copy + Default + PartialEq>(
        &self,
        row: Row,
        room: usize,
        make: impl Fn(&mut Random) -> I,
        mut ours: impl FnMut(&I, &mut [T]) -> Answer,
        mut plain: impl FnMut(&I, &mut [T]) -> Answer,
    ) -> Option<f64> {
        self.row(
            row,
            room,
            make,
            |input, out| timed(input, out, &mut ours),
            |input, out| timed(input, out, &mut plain),
            |times, times_too| median(times.iter().zip(times_too).map(|(here, there)| there / here).collect()),
        )
    }

    /// The same without the first part of each job, which is done and timed by itself just before. Such a difference can be small, so that the ratio is
    /// that of the medians.
    pub fn compare_without<I: Clone, T: Copy + Default + PartialEq>(
        &self,
        row: Row,
        room: usize,
        make: impl Fn(&mut Random) -> I,
        (mut ours, mut our_part): (impl FnMut(&I, &mut [T]) -> Answer, impl FnMut(&I, &mut [T]) -> Answer),
        (mut plain, mut plain_part): (impl FnMut(&I, &mut [T]) -> Answer, impl FnMut(&I, &mut [T]) -> Answer),
    ) -> Option<f64> {
        fn less((part, _): (f64, Answer), (time, answer): (f64, Answer)) -> (f64, Answer) {
            (time - part, answer)
        }
        self.row(
            row,
            room,
            make,
            |input, out| less(timed(input, out, &mut our_part), timed(input, out, &mut ours)),
            |input, out| less(timed(input, out, &mut plain_part), timed(input, out, &mut plain)),
            |times, times_too| median(times_too.to_vec()) / median(times.to_vec()),
        )
    }

    /// A side answers its time with its answer.
    fn row<I, T: Copy + Default + PartialEq>(
        &self,
        Row { name, inputs, bar, parts }: Row,
        room: usize,
        make: impl Fn(&mut Random) -> I,
        mut ours: impl FnMut(&I, &mut [T]) -> (f64, Answer),
        mut plain: impl FnMut(&I, &mut [T]) -> (f64, Answer),
        ratio: impl Fn(&[f64], &[f64]) -> f64,
    ) -> Option<f64> {
        if !self.wanted.is_empty() && !self.wanted.iter().any(|part| name.contains(part)) {
            return None;
        }
        let mut random = Random(7);
        let inputs: Vec<I> = (0..inputs).map(|_| make(&mut random)).collect();
        let (mut out, mut out_too) = (vec![T::default(); room], vec![T::default(); room]);
        let (mut times, mut times_too) = (Vec::new(), Vec::new());
        for (i, input) in inputs.iter().enumerate() {
            let (here, there);
            if i % 2 == 0 {
                here = ours(input, &mut out);
                there = plain(input, &mut out_too);
            } else {
                there = plain(input, &mut out_too);
                here = ours(input, &mut out);
            }
            assert_eq!(here.1.expect(&name), there.1.expect(&name), "{name}");
            assert!(out == out_too, "{name}");
            times.push(here.0);
            times_too.push(there.0);
        }
        let ratio = ratio(&times, &times_too);
        let (here, there) = (median(times) / parts as f64, median(times_too) / parts as f64);
        let digits = if parts > 1 { 2 } else { 0 };
        let met = bar.map_or("", |bar| if ratio >= bar { "met" } else { "missed" });
        let bar = bar.map_or(String::new(), |bar| bar.to_string());
        println!("| {name} | {here:.digits$} | {there:.digits$} | {ratio:.2} | {bar} | {met} |");
        Some(here)
    }
}
