//! What each operation costs beside the same job in plain Rust: both sides in one run, on the same inputs, which differ from call to call, so that no
//! branch is learned. Writes the median times, the median of the ratios, and whether the bars are met. Both sides test the code in every call, and
//! must give the same.
//!
//!     cargo bench                    all rows
//!     cargo bench -- matrix plain    rows with one of these words in their names
//!
//! With the folder of another libabi.a in VAKHUDLE_ARCHIVE that archive is measured.
mod inputs;
mod timing;

use inputs::{Kind, OwnCode};
use timing::{Bench, Row};
use vakhudle::plain::{fast, Random};
use vakhudle::{Answer, Code, FIGURES, MOST_POINTS, MOST_TRIES, ROLLING_STATE, WORKING_SPACE};

fn products(bench: &Bench, field: u8, inputs: usize) {
    let n = 4096;
    bench.compare(
        Row::new(format!("a product, field {field}, lists of {n}"), inputs).parts(n),
        n,
        |random| (random.symbols(field, n), random.symbols(field, n)),
        |(a, b), out| vakhudle::products(field, a, b, out),
        |(a, b), out| fast::products(field, a, b, out),
    );
}

/// `bar` is for the curves with the most points.
fn points(bench: &Bench, kind: Kind, bar: Option<f64>) {
    let Kind { field, n, inputs, .. } = kind;
    let ours = |curve: &[u8; 5], out: &mut [u8]| {
        let (xs, ys) = out.split_at_mut(MOST_POINTS);
        vakhudle::points(field, *curve, xs, ys)
    };
    let plain = |curve: &[u8; 5], out: &mut [u8]| {
        let (xs, ys) = out.split_at_mut(MOST_POINTS);
        fast::points(field, *curve, xs, ys)
    };
    let row = |curves: String| Row::new(format!("points, m = {field}, {curves}"), inputs);
    bench.compare(row(format!("n = {n}")).bar(bar), 2 * MOST_POINTS, |random| inputs::full_curve(&kind, random).0, ours, plain);
    bench.compare(row("any curve".into()), 2 * MOST_POINTS, |random| inputs::curve(field, random).0, ours, plain);
}

type Heard = fn(&Code, &[u8], &mut [u16]) -> Answer;

/// Masks by the thousand, each with one of a hundred codes, sixteen in one measurement: with the code test, and without it.
fn masks(bench: &Bench, kind: Kind, bar: f64) {
    const TOGETHER: usize = 16;
    let mut random = Random(8);
    let codes: Vec<_> = (0..100).map(|_| inputs::code(&kind, &mut random)).collect();
    // the places heard, of all these masks together
    let whole =
        |heard: Heard| move |all: &Vec<(OwnCode, Vec<u8>)>, out: &mut [u16]| all.iter().map(|(code, mask)| heard(&code.code(), mask, out)).sum();
    // a mask that is too short is refused right after the code test
    let test = |heard: Heard| {
        move |all: &Vec<(OwnCode, Vec<u8>)>, out: &mut [u16]| {
            assert!(all.iter().all(|(code, mask)| heard(&code.code(), &mask[1..], out) == Err(8)));
            Ok(0)
        }
    };
    for (heard, eighths) in [("dense", 7), ("sparse", 1), ("empty", 0), ("full", 8)] {
        let row = |job: &str| Row::new(kind.named(&format!("{job}, {heard} masks")), 4000 / TOGETHER).parts(TOGETHER).bar(bar);
        let one = |random: &mut Random| (codes[random.below(100) as usize].clone(), inputs::mask(&kind, eighths, random));
        let make = |random: &mut Random| -> Vec<_> { (0..TOGETHER).map(|_| one(random)).collect() };
        bench.compare(row("heard"), MOST_POINTS, make, whole(vakhudle::heard), whole(fast::heard));
        let (ours, plain) = ((whole(vakhudle::heard), test(vakhudle::heard)), (whole(fast::heard), test(fast::heard)));
        // where nothing is heard that is a few nanoseconds, too few to compare
        let bar = (eighths > 0).then_some(bar);
        bench.compare_without(row("heard without the code test").bar(bar), MOST_POINTS, make, ours, plain);
    }
}

fn packing(bench: &Bench, kind: Kind) {
    let hours = kind.hours();
    bench.compare(
        Row::new(kind.named(&format!("pack {hours} hours")), kind.inputs),
        kind.k,
        |random| (inputs::code(&kind, random), inputs::block_means(&kind, random)),
        |(code, means), out| vakhudle::pack(&code.code(), means, out),
        |(code, means), out| fast::pack(&code.code(), means, out),
    );
    bench.compare(
        Row::new(kind.named(&format!("unpack {hours} hours")), kind.inputs),
        hours,
        |random| {
            let (code, mut symbols) = (inputs::code(&kind, random), vec![0; kind.k]);
            fast::pack(&code.code(), &inputs::block_means(&kind, random), &mut symbols).unwrap();
            (code, symbols)
        },
        |(code, symbols), out| vakhudle::unpack(&code.code(), symbols, out),
        |(code, symbols), out| fast::unpack(&code.code(), symbols, out),
    );
}

fn plain(bench: &Bench, kind: Kind, bar: f64) {
    bench.compare(
        Row::new(kind.named("plain"), kind.inputs).bar(bar),
        kind.n,
        |random| (inputs::code(&kind, random), random.symbols(kind.field, kind.k)),
        |(code, coefficients), out| vakhudle::plain(&code.code(), coefficients, out),
        |(code, coefficients), out| fast::plain(&code.code(), coefficients, out),
    );
}

/// Beside elimination of the k by k system, and evaluation. `bar` is for words, `bar_of_pick` for Pick.
fn places(bench: &Bench, kind: Kind, bar: f64, bar_of_pick: f64) {
    let (mut work, mut work_too) = (vec![0; WORKING_SPACE], vec![0; WORKING_SPACE]);
    bench.compare(
        Row::new(kind.named("systematic word"), kind.inputs).bar(bar),
        kind.n,
        |random| {
            let code = inputs::code(&kind, random);
            (inputs::choice(&kind, &code, random), random.symbols(kind.field, kind.k), code)
        },
        |(choice, message, code), out| vakhudle::systematic_word(&code.code(), choice, message, out, &mut work),
        |(choice, message, code), out| fast::systematic_word(&code.code(), choice, message, out, &mut work_too),
    );
    bench.compare(
        Row::new(kind.named("rebuild"), kind.inputs).bar(bar),
        kind.n,
        |random| {
            let code = inputs::code(&kind, random);
            (inputs::heard_word(&kind, &code, random), code)
        },
        |((heard, symbols), code), out| vakhudle::rebuild(&code.code(), heard, symbols, out, &mut work),
        |((heard, symbols), code), out| fast::rebuild(&code.code(), heard, symbols, out, &mut work_too),
    );
    bench.compare(
        Row::new(kind.named("pick"), kind.inputs).bar(bar_of_pick),
        kind.k,
        |random| (inputs::code(&kind, random), inputs::heard(&kind, random)),
        |(code, heard), out| vakhudle::pick(&code.code(), heard, out, &mut work),
        |(code, heard), out| fast::pick(&code.code(), heard, out, &mut work_too),
    );
}

/// With as many wrong symbols as can be put right, beside elimination for the places that are right, and another for the word.
fn correct(bench: &Bench, kind: Kind, bar: Option<f64>) {
    let (mut work, mut work_too) = (vec![0; WORKING_SPACE], vec![0; WORKING_SPACE]);
    let errors = (kind.n - kind.k - 2) / 2;
    bench.compare(
        Row::new(format!("{}, {errors} errors", kind.named("correct")), kind.inputs).bar(bar),
        kind.n,
        |random| {
            let code = inputs::code(&kind, random);
            (inputs::wrong_word(&kind, &code, errors, random), code)
        },
        |(received, code), out| vakhudle::correct(&code.code(), received, out, &mut work),
        |(received, code), out| fast::correct(&code.code(), received, out, &mut work_too),
    );
}

type Best = fn(&Code, &[u8], &[u8], u32, &mut [u8], &mut [u32], &mut [u8]) -> Answer;

/// With six wrong symbols, which are trusted less than most others, or with trusts that say nothing, beside tries over the rows of the matrix, which one
/// elimination makes. Both sides pass by what cannot be cheaper.
fn best(bench: &Bench, kind: Kind, budget: u32, any_trusts: bool, bar: Option<f64>) {
    const ERRORS: usize = 6;
    let run = |best: Best| {
        let mut work = vec![0; WORKING_SPACE];
        // the figures behind the word
        move |((received, trusts), code): &((Vec<u8>, Vec<u8>), OwnCode), out: &mut [u8]| {
            let (symbols, rest) = out.split_at_mut(received.len());
            let mut figures = [0; FIGURES];
            let answer = best(&code.code(), received, trusts, budget, symbols, &mut figures, &mut work);
            rest.chunks_exact_mut(4).zip(figures).for_each(|(bytes, figure)| bytes.copy_from_slice(&figure.to_le_bytes()));
            answer
        }
    };
    let trusts = if any_trusts { ", any trusts" } else { "" };
    bench.compare(
        Row::new(format!("{}, {ERRORS} errors, budget {budget}{trusts}", kind.named("best")), kind.inputs).bar(bar),
        kind.n + 4 * FIGURES,
        |random| {
            let code = inputs::code(&kind, random);
            (inputs::trusted_word(&kind, &code, ERRORS, any_trusts, random), code)
        },
        run(vakhudle::best),
        run(fast::best),
    );
}

/// Beside one elimination of the k by n generator matrix. Answers our time for a symbol.
fn matrix(bench: &Bench, kind: Kind, bar: Option<f64>) -> Option<f64> {
    let (mut work, mut work_too) = (vec![0; WORKING_SPACE], vec![0; WORKING_SPACE]);
    let symbols = kind.k * kind.n;
    let ours = bench.compare(
        Row::new(kind.named("matrix"), kind.inputs).bar(bar),
        symbols,
        |random| {
            let code = inputs::code(&kind, random);
            (inputs::choice(&kind, &code, random), code)
        },
        |(choice, code), out| vakhudle::matrix(&code.code(), choice, out, &mut work),
        |(choice, code), out| fast::matrix(&code.code(), choice, out, &mut work_too),
    );
    ours.map(|time| time / symbols as f64)
}

fn means(bench: &Bench) {
    bench.compare(
        Row::new("means of 24 hours, seven readings of eight".into(), 1000),
        24,
        inputs::day,
        |(first_hour, stamps, readings), out| vakhudle::means(stamps, readings, *first_hour, out),
        |(first_hour, stamps, readings), out| fast::means(stamps, readings, *first_hour, out),
    );
}

type Rolling = fn(&mut [u8], u32, i16, &mut [i16]) -> Answer;

/// The next hour of sixteen runs in one measurement. Their states are copied to where they change, in the time of both sides.
fn rolling(bench: &Bench) {
    const TOGETHER: usize = 16;
    let hours = |rolling: Rolling| {
        move |all: &Vec<(Vec<u8>, u32, i16)>, out: &mut [u8]| {
            let hours = all.iter().zip(out.chunks_exact_mut(ROLLING_STATE + 2));
            let each = hours.map(|((before, hour, mean), out)| {
                let (state, rolling_mean) = out.split_at_mut(ROLLING_STATE);
                state.copy_from_slice(before);
                let mut written = [0];
                let answer = rolling(state, *hour, *mean, &mut written);
                rolling_mean.copy_from_slice(&written[0].to_le_bytes());
                answer
            });
            each.sum()
        }
    };
    bench.compare(
        Row::new("rolling, an hour of any run".into(), 4000 / TOGETHER).parts(TOGETHER),
        TOGETHER * (ROLLING_STATE + 2),
        |random| (0..TOGETHER).map(|_| inputs::next_hour(random)).collect(),
        hours(vakhudle::rolling),
        hours(fast::rolling),
    );
}

fn main() {
    // cargo itself adds --bench
    let bench = Bench { wanted: std::env::args().skip(1).filter(|word| !word.starts_with('-')).collect() };
    let small = Kind { field: 6, n: 80, k: 60, inputs: 1000 };
    let large = Kind { field: 8, n: 288, k: 200, inputs: 100 };
    bench.heading();
    products(&bench, 6, 1000);
    products(&bench, 8, 100);
    products(&bench, 9, 100);
    points(&bench, small, Some(3.0));
    points(&bench, large, None);
    for (kind, bar) in [(small, 2.0), (large, 3.0)] {
        plain(&bench, kind, bar);
        masks(&bench, kind, 1.0);
        packing(&bench, kind);
    }
    means(&bench);
    rolling(&bench);
    places(&bench, small, 8.0, 20.0);
    places(&bench, large, 20.0, 50.0);
    correct(&bench, small, Some(8.0));
    correct(&bench, large, None);
    for budget in [1, 3_781, MOST_TRIES] {
        best(&bench, small, budget, false, Some(1.0));
    }
    best(&bench, small, MOST_TRIES, true, Some(1.0));
    best(&bench, large, MOST_TRIES, false, None);
    matrix(&bench, small, Some(8.0));
    let grows: Vec<_> = [50, 100, 200].map(|k| (k, matrix(&bench, Kind { k, ..large }, (k == 200).then_some(15.0)))).into();
    bench.empty();
    for (k, time) in grows {
        if let Some(time) = time {
            println!("A symbol of Matrix takes {time:.2} ns at m = 8, n = 288, k = {k}.");
        }
    }
}
