//! How long each leaf and a path take, ours beside the source's or Rust's own: one program, the same inputs,
//! turn and turn about. What is shown is the least time of many rounds, so that other work on the
//! machine counts as little as it can.
use crate::carried::{carry, until, Carry, Lent, Until, HALTED, TIMERS};
use crate::draw::Draw;
use crate::ensembles;
use crate::games;
use crate::halts;
use crate::leaves::{ways, ways_real};
use crate::paths;
use crate::rattle;
use crate::ssa::inside::filled;
use crate::ssa::portable_log::frexp;
use crate::ssa::{plog, realization, simulate_compiled, simulate_sde_compiled, splitmix64, SdeOptions, SsaOptions, Xoshiro256};
use std::hint::black_box;
use std::time::Instant;

const N: usize = 4096;
const ROUNDS: usize = 2000;
const PATH_ROUNDS: usize = 50;
const GAME_ROUNDS: usize = 5;

/// Both functions get a fresh copy of the inputs in each round; making it is not timed.
fn measure<T: Clone>(name: &str, input: &[T], ours: impl Fn(&mut [T]), theirs: impl Fn(&mut [T])) {
    let mut best = [f64::INFINITY; 2];
    for _ in 0..ROUNDS {
        for (side, run) in [&ours as &dyn Fn(&mut [T]), &theirs].into_iter().enumerate() {
            let mut xs = black_box(input.to_vec());
            let began = Instant::now();
            run(&mut xs);
            best[side] = best[side].min(began.elapsed().as_nanos() as f64 / input.len() as f64);
            black_box(xs);
        }
    }
    println!("{name:34} {:8.2} {:8.2} {:7.2}", best[0], best[1], best[0] / best[1]);
}

pub fn bench(folder: &str) {
    let mut draw = Draw::new(7);
    let words: Vec<u64> = (0..N).map(|_| draw.word()).collect();
    let units: Vec<f64> = (0..N).map(|_| 1.0 - draw.unit()).collect();
    let positive: Vec<f64> = (0..N).map(|_| f64::from_bits(0x10_0000_0000_0000 + draw.below(0x7FD0_0000_0000_0000))).collect();
    let counts: Vec<(i64, f64)> = (0..N).map(|_| (20 + draw.below(1000) as i64, draw.unit() * 1000.0)).collect();

    println!("{:34} {:>8} {:>8} {:>7}", "nanoseconds for each", "ours", "Rust", "ratio");
    println!("whole slices, one call");
    measure("wrapping_mul", &words, |xs| rattle::products(xs, 0x9E37_79B9_7F4A_7C15), |xs| {
        xs.iter_mut().for_each(|x| *x = x.wrapping_mul(0x9E37_79B9_7F4A_7C15))
    });
    let k = black_box(45);
    measure("rotate_left", &words, |xs| rattle::rotations(xs, k), |xs| xs.iter_mut().for_each(|x| *x = x.rotate_left(k)));
    measure("Xoshiro256 next_u64", &words, |xs| rattle::outputs(&mut [1, 2, 3, 4], xs), |xs| {
        let mut rng = Xoshiro256::from_state([1, 2, 3, 4]);
        xs.iter_mut().for_each(|x| *x = rng.next_u64());
        black_box(rng);
    });
    measure("Xoshiro256 uniform", &units, |xs| rattle::uniforms(&mut [1, 2, 3, 4], xs), |xs| {
        let mut rng = Xoshiro256::from_state([1, 2, 3, 4]);
        xs.iter_mut().for_each(|x| *x = rng.uniform());
        black_box(rng);
    });
    measure("plog of 1 - uniform", &units, rattle::plogs, |xs| xs.iter_mut().for_each(|x| *x = plog(*x)));
    measure("plog of any positive", &positive, rattle::plogs, |xs| xs.iter_mut().for_each(|x| *x = plog(*x)));
    measure("sqrt of 1 - uniform (hardware)", &units, rattle::roots, |xs| xs.iter_mut().for_each(|x| *x = x.sqrt()));
    measure("sqrt of any positive (hardware)", &positive, rattle::roots, |xs| xs.iter_mut().for_each(|x| *x = x.sqrt()));

    println!("a call for each, on both sides");
    let theirs = black_box(theirs::splitmix64 as extern "C" fn(u64, &mut [u64; 4]));
    measure("splitmix64", &words, |xs| xs.iter_mut().for_each(|x| *x = rattle::splitmix64(*x)[3]), |xs| {
        xs.iter_mut().for_each(|x| {
            let mut s = [0; 4];
            theirs(*x, &mut s);
            *x = s[3];
        })
    });
    let theirs = black_box(theirs::plog_of_rest as extern "C" fn(u64) -> f64);
    measure("plog of 1 - uniform, by the output", &words, |xs| xs.iter_mut().for_each(|x| *x = rattle::plog_of_rest(*x).to_bits()), |xs| {
        xs.iter_mut().for_each(|x| *x = theirs(*x).to_bits())
    });
    let theirs = black_box(theirs::frexp as extern "C" fn(f64, &mut i32) -> f64);
    measure("frexp", &positive, |xs| xs.iter_mut().for_each(|x| *x = { let (f, e) = rattle::frexp(*x); f + e as f64 }), |xs| {
        xs.iter_mut().for_each(|x| {
            let mut e = 0;
            let f = theirs(*x, &mut e);
            *x = f + e as f64;
        })
    });
    let theirs = black_box(theirs::sqrt as extern "C" fn(f64) -> f64);
    measure("sqrt (hardware)", &positive, |xs| xs.iter_mut().for_each(|x| *x = rattle::sqrt(*x)), |xs| xs.iter_mut().for_each(|x| *x = theirs(*x)));
    for w in [1, 2, 16] {
        let w = black_box(w);
        measure_ways(&format!("combinations, weight {w}"), &counts, w);
        let theirs = black_box(theirs::combinations_real as extern "C" fn(f64, i64, &mut f64) -> bool);
        measure(&format!("combinations_real, weight {w}"), &counts, |xs| xs.iter_mut().for_each(|x| x.1 = rattle::combinations_real(x.1, w).unwrap()), |xs| {
            xs.iter_mut().for_each(|x| {
                let mut v = 0.0;
                assert!(theirs(x.1, w, &mut v));
                x.1 = v;
            })
        });
    }
    bench_paths(folder);
    measure_diffusions();
}

/// Paths and ensembles alone.
pub fn bench_paths(folder: &str) {
    measure_paths(folder);
    measure_ensembles(folder);
}

/// The Rust works the float alone; ours says too whether it is exact.
fn measure_ways(name: &str, counts: &[(i64, f64)], w: i64) {
    let theirs = black_box(theirs::combinations as extern "C" fn(i64, i64, &mut f64) -> bool);
    measure(name, counts, |xs| xs.iter_mut().for_each(|x| x.1 = rattle::combinations(x.0, w).unwrap().0), |xs| {
        xs.iter_mut().for_each(|x| {
            let mut v = 0.0;
            assert!(theirs(x.0, w, &mut v));
            x.1 = v;
        })
    });
}

/// Nanoseconds a call of `combinations`: at counts where no step can round, and at those where whole numbers decide.
pub fn bench_combinations() {
    let mut draw = Draw::new(7);
    println!("{:34} {:>8} {:>8} {:>7}", "nanoseconds for each", "ours", "Rust", "ratio");
    for (name, w, from) in [
        ("weight 1, m from 17 to 64", 1, 17),
        ("weight 2, m from 17 to 64", 2, 17),
        ("weight 8, m from 17 to 64", 8, 17),
        ("weight 16, m from 17 to 64", 16, 17),
        ("weight 2, m below 2^40", 2, (1 << 40) - 48),
        ("weight 16, m below 2^53", 16, (1 << 53) - 48),
    ] {
        let counts: Vec<(i64, f64)> = (0..N).map(|_| (from + draw.below(48) as i64, 0.0)).collect();
        measure_ways(name, &counts, black_box(w));
    }
}

/// The least time of some rounds on each side, and their ratio.
fn turn_about(name: &str, rounds: usize, per: f64, mut ours: impl FnMut(), mut theirs: impl FnMut()) {
    let mut best = [f64::INFINITY; 2];
    for _ in 0..rounds {
        for (side, run) in [&mut ours as &mut dyn FnMut(), &mut theirs].into_iter().enumerate() {
            let began = Instant::now();
            run();
            best[side] = best[side].min(began.elapsed().as_secs_f64());
        }
    }
    println!("{name:34} {:8.2} {:8.2} {:7.2}", best[0] / per * 1e6, best[1] / per * 1e6, best[0] / best[1]);
}

/// Whole ensembles over the nets of the paths, and one of short paths: both sides have to give the same means and deviations first.
fn measure_ensembles(folder: &str) {
    println!("{:34} {:>8} {:>8} {:>7}", "microseconds a path of an ensemble", "ours", "Rust", "ratio");
    let all = paths::measured().into_iter().chain(paths::measured_files(folder));
    let few = |name: &str| if name == "soak.net" { 2 } else { 16 };
    let mut cases: Vec<_> = all.map(|(name, c)| (name, c.net, *c.instants.last().unwrap(), few(name))).collect();
    cases.push(("document 01's sample, 3 steps", crate::nets::example(), 2.0, 10_000));
    for (name, net, horizon, realizations) in cases {
        let case = ensembles::Case { net, samples: 64, realizations, seed: 1, horizon };
        let options = SsaOptions { horizon, samples: 64, realizations: realizations as usize, seed: 1 };
        let (fields, model) = (rattle::Fields::of(&case.net), filled(&case.net));
        let mut tables = [vec![0.0; 2048], vec![0.0; 2048], vec![0.0; 2048]];
        let theirs = simulate_compiled(&model, &options).unwrap();
        assert_eq!(rattle::ensemble(&fields, 64, realizations, 1, horizon, &mut tables)[0], 0, "{name}: refused");
        let cells = case.net.places.len() * 64;
        assert!(tables[0][..cells] == theirs.values.concat() && tables[1][..cells] == theirs.stddev.unwrap().concat(), "{name}: the answers differ");
        turn_about(name, 20, realizations as f64, || {
            black_box(rattle::ensemble(&fields, 64, realizations, 1, horizon, &mut tables));
        }, || {
            black_box(simulate_compiled(&model, &options).unwrap());
        });
    }
}

/// Diffusions over the same nets without what gates them.
fn measure_diffusions() {
    println!("{:34} {:>8} {:>8} {:>7}", "microseconds a path of a diffusion", "ours", "Rust", "ratio");
    for (name, case) in paths::measured() {
        let mut net = case.net;
        for m in &mut net.moves {
            m.arcs.retain(|a| a.kind() == 0 || a.kind() == 2);
            m.delay = 0.0;
        }
        let horizon = 1.0;
        let options = SdeOptions { horizon, samples: 64, realizations: 4, seed: 1 };
        let (fields, model) = (rattle::Fields::of(&net), filled(&net));
        let mut tables = [vec![0.0; 2048], vec![0.0; 2048], vec![0.0; 2048]];
        let theirs = simulate_sde_compiled(&model, &options).unwrap();
        assert_eq!(rattle::diffusion(&fields, 64, 4, 1, horizon, &mut tables)[0], 0, "{name}: refused");
        let cells = net.places.len() * 64;
        assert!(tables[0][..cells] == theirs.values.concat() && tables[1][..cells] == theirs.stddev.unwrap().concat(), "{name}: the answers differ");
        turn_about(name, 20, 4.0, || {
            black_box(rattle::diffusion(&fields, 64, 4, 1, horizon, &mut tables));
        }, || {
            black_box(simulate_sde_compiled(&model, &options).unwrap());
        });
    }
}

/// Microseconds to read each net text of the folder, and one of 8,192 bytes: the least time of many rounds.
pub fn bench_reader(folder: &str) {
    let mut texts: Vec<(String, Vec<u8>)> = std::fs::read_dir(folder)
        .unwrap()
        .map(|entry| entry.unwrap().path())
        .filter(|path| path.extension().is_some_and(|e| e == "net"))
        .map(|path| (path.file_name().unwrap().to_string_lossy().into_owned(), std::fs::read(&path).unwrap()))
        .collect();
    texts.sort();
    let first = String::from_utf8(texts.iter().find(|t| t.0 == "sample.net").expect("no sample.net").1.clone()).unwrap();
    texts.push(("8,192 bytes".into(), full_text(&first).into_bytes()));
    println!("{:34} {:>8} {:>8} {:>8}", "microseconds to read a net text", "bytes", "ours", "MB/s");
    for (name, text) in texts {
        let mut best = f64::INFINITY;
        for _ in 0..ROUNDS {
            let began = Instant::now();
            black_box(rattle::read(black_box(&text)));
            best = best.min(began.elapsed().as_nanos() as f64 / 1000.0);
        }
        println!("{name:34} {:>8} {best:8.2} {:8.0}   refusal and line {:?}", text.len(), text.len() as f64 / best, rattle::read(&text));
    }
}

/// Positions of a game in a second, and the time of a whole search: the least of some rounds. The Rust is the harness's own search, since the source
/// has none; both have to give the same answer first.
pub fn bench_game() {
    println!("{:34} {:>8} {:>8} {:>7} {:>8} {:>8}", "million positions a second", "ours", "Rust", "ratio", "ours, s", "Rust, s");
    for (name, case) in games::measured() {
        let answer = games::searched(&case);
        assert_eq!(games::by_library(&case), answer, "{name}: the answers differ");
        let mut best = [f64::INFINITY; 2];
        for _ in 0..GAME_ROUNDS {
            for (side, run) in [games::by_library, games::searched].into_iter().enumerate() {
                let began = Instant::now();
                black_box(run(black_box(&case)));
                best[side] = best[side].min(began.elapsed().as_secs_f64());
            }
        }
        let rate = |time: f64| answer[2] as f64 / time / 1e6;
        println!("{name:34} {:8.1} {:8.1} {:7.2} {:8.3} {:8.3}   {} positions", rate(best[0]), rate(best[1]), best[0] / best[1], best[0], best[1], answer[2]);
    }
}

/// Microseconds a call of order 8 on the largest net with 256 timers running, and for comparison of a path call of one step: the least of many rounds, of
/// which the copies that a call writes into are not timed. Each has to leave what the second player leaves.
pub fn bench_carry() {
    let net = halts::largest();
    let fields = rattle::Fields::of(&net);
    let mut call = Until { net: net.clone(), generator: [1, 2, 3, 4], instants: vec![2f64.powi(30)], limit: 1_000_000, named: 1000 };
    let mut tried = Lent::littered(&mut Draw::new(7), 32);
    until(&call, &mut tried);
    let clock = tried.times[0];
    println!("{:54} {:>8}", "microseconds a call; the bar of order 8 is 20", "ours");
    let least = |name: &str, before: &Lent, run: &dyn Fn(&mut Lent)| {
        let mut best = f64::INFINITY;
        for _ in 0..ROUNDS {
            let mut lent = black_box(before.clone());
            let began = Instant::now();
            run(&mut lent);
            best = best.min(began.elapsed().as_nanos() as f64 / 1000.0);
            black_box(lent);
        }
        println!("{name:54} {best:8.2}");
    };
    least("path, no step", &tried, &|lent| {
        rattle::path(&fields, &mut [1, 2, 3, 4], &[0.0], 1, &mut lent.table);
    });
    for many in [10, 1024] {
        // the clock is about the middle of them
        call.instants = (0..many).map(|i| i as f64 * (2.0 * clock / (many - 1) as f64)).collect();
        let empty = Lent::littered(&mut Draw::new(7), 32 * many);
        least(&format!("path, limit 1, {many} instants"), &empty, &|lent| {
            rattle::path(&fields, &mut [1, 2, 3, 4], &call.instants, 1, &mut lent.table);
        });
        for named in [0, 1] {
            let run = |lent: &mut Lent| lent.told = rattle::path_until(&fields, &mut [1, 2, 3, 4], &call.instants, call.limit, named, &mut lent.table, &mut lent.words, &mut lent.times);
            call.named = named;
            let (mut ours, mut theirs) = (empty.clone(), empty.clone());
            run(&mut ours);
            until(&call, &mut theirs);
            assert!(ours == theirs, "the answers differ: {}", ours.against(&theirs));
            least(&format!("path_until naming {named}, {many} instants"), &empty, &run);
        }
        call.named = 1000;
        let mut halted = empty.clone();
        until(&call, &mut halted);
        assert_eq!((halted.told[0], halted.words[TIMERS]), (HALTED, 256));
        for named in [0, 1] {
            let on = Carry::on(&net, &call.instants, named);
            let run = |lent: &mut Lent| lent.told = rattle::carry(&fields, &fields, &on.pairs, &on.instants, named, &mut lent.table, &mut lent.words, &mut lent.times);
            let (mut ours, mut theirs) = (halted.clone(), halted.clone());
            run(&mut ours);
            carry(&on, &mut theirs);
            assert!(ours == theirs, "the answers differ: {}", ours.against(&theirs));
            least(&format!("carry naming {named}, 256 timers, {many} instants, {} recorded", halted.told[2]), &halted, &run);
        }
    }
}

/// The places of a text, and transitions of 16 arcs up to 8,192 bytes in all, the last one with as many arcs as there is room for.
fn full_text(text: &str) -> String {
    let places = &text[..text.find("(move").unwrap()];
    let run = &text[text.find("(run").unwrap()..];
    let mut moves = String::new();
    let left = |moves: &str| 8192 - places.len() - moves.len() - run.len();
    let arc = " (put 1 1000000)";
    let head = "(move 3ff0000000000000 0000000000000000";
    while left(&moves) > 2 * (head.len() + 16 * arc.len() + 2) {
        moves += &format!("{head}{})\n", arc.repeat(16));
    }
    // what is left, in two lines of arcs that are as long as each other or one byte longer, by the digits of their weights
    for share in [2, 1] {
        let body = left(&moves) / share - head.len() - 2;
        let arcs = body.div_ceil(arc.len());
        moves += head;
        for k in 0..arcs {
            let digits = body / arcs + usize::from(k < body % arcs) - (arc.len() - 7);
            moves += &format!(" (put 1 {})", &"1000000"[..digits]);
        }
        moves += ")\n";
    }
    let full = format!("{places}{moves}{run}");
    assert_eq!(full.len(), 8192);
    full
}

/// Steps of a path in a second, from the least time of some rounds. Both sides have to give the answer
/// that the harness works out; filling their records is not timed.
fn measure_paths(folder: &str) {
    println!("{:34} {:>8} {:>8} {:>7}", "thousand steps of a path a second", "ours", "Rust", "ratio of times");
    for (name, case) in paths::measured().into_iter().chain(paths::measured_files(folder)).chain(paths::measured_timers()).chain(paths::measured_beyond()) {
        let answer = paths::play(&case);
        assert!(paths::by_library(&case) == answer.line(&case) && paths::source_agrees(&case, &answer) == Some(true), "{name}: the answers differ");
        let (fields, model) = (rattle::Fields::of(&case.net), filled(&case.net));
        let mut best = [f64::INFINITY; 2];
        for _ in 0..PATH_ROUNDS {
            let (mut state, mut table) = (black_box(case.state), vec![0.0; 2048]);
            let began = Instant::now();
            rattle::path(&fields, &mut state, &case.instants, case.limit, &mut table);
            best[0] = best[0].min(began.elapsed().as_secs_f64());
            black_box((state, table));
            let mut rng = Xoshiro256::from_state(black_box(case.state));
            let began = Instant::now();
            let table = realization(&model, &case.instants, &mut rng);
            best[1] = best[1].min(began.elapsed().as_secs_f64());
            black_box((rng, table));
        }
        let rate = |time: f64| answer.steps as f64 / time / 1000.0;
        println!("{name:34} {:8.0} {:8.0} {:7.2}   {} steps", rate(best[0]), rate(best[1]), best[0] / best[1], answer.steps);
    }
}

/// The source's functions behind the same boundary as ours.
mod theirs {
    use super::*;

    pub extern "C" fn splitmix64(seed: u64, state: &mut [u64; 4]) {
        *state = super::splitmix64(seed);
    }

    pub extern "C" fn plog_of_rest(x: u64) -> f64 {
        plog(1.0 - (x >> 11) as f64 * (1.0 / (1u64 << 53) as f64))
    }

    pub extern "C" fn frexp(x: f64, exp: &mut i32) -> f64 {
        let (frac, e) = super::frexp(x);
        *exp = e;
        frac
    }

    pub extern "C" fn sqrt(x: f64) -> f64 {
        x.sqrt()
    }

    pub extern "C" fn combinations(m: i64, w: i64, value: &mut f64) -> bool {
        ways(m, w).map(|v| *value = v).is_some()
    }

    pub extern "C" fn combinations_real(x: f64, w: i64, value: &mut f64) -> bool {
        ways_real(x, w).map(|v| *value = v).is_some()
    }
}
