//! Ensembles: drawn nets and requests, and their answers. An answer is worked from the second player's
//! paths by document 01; where the source's `simulate_compiled` has one it is held to it first, every bit of
//! the means and the deviations. The same cases go to the proved library, tables and all, and as net texts to
//! the program pathrun.
use crate::draw::Draw;
use crate::nets::{Arc, Net};
use crate::paths::{self, BEFORE, CELLS};
use crate::player::{self, End, MOST_STEPS};
use crate::rattle;
use crate::report::same;
use crate::ssa::inside::filled;
use crate::ssa::{sample_grid, simulate_compiled, splitmix64, SsaOptions};
use std::fmt::Write;

#[derive(Clone)]
pub struct Case {
    pub net: Net,
    pub samples: u64,
    pub realizations: u64,
    pub seed: u64,
    pub horizon: f64,
}

#[derive(Clone, Copy, PartialEq, Debug)]
pub enum Outcome {
    /// How many paths were spent.
    Averaged(u64),
    TurnedDown(u64),
    /// The number, and the path's.
    Stopped(u64, u64),
}

pub struct Answer {
    pub outcome: Outcome,
    /// Mean, deviation and path: the answer's cells, or none where nothing is touched.
    pub tables: Option<[Vec<f64>; 3]>,
    /// Whether some race of some path drew r = 0.
    zero: bool,
}

fn turned_down(number: u64) -> Answer {
    Answer { outcome: Outcome::TurnedDown(number), tables: None, zero: false }
}

/// The first of the net's refusals, 8, 9, 10 and 11 that applies, with tables of 2,048 cells.
pub fn fault(case: &Case) -> Option<u64> {
    let tests = [
        (8, !(2..=1024).contains(&case.samples)),
        (9, !(1..=65_535).contains(&case.realizations)),
        (10, !(0.0 < case.horizon && case.horizon <= 2f64.powi(30))),
        (11, case.net.places.len() as u64 * case.samples.min(2048) > CELLS as u64),
    ];
    player::fault(&case.net).or(tests.into_iter().find(|t| t.1).map(|t| t.0))
}

/// What document 01 says of the case, with tables of 2,048 cells.
pub fn play(case: &Case) -> Answer {
    if let Some(number) = fault(case) {
        return turned_down(number);
    }
    let n = case.samples as usize;
    let cells = case.net.places.len() * n;
    let width = case.horizon / (n - 1) as f64;
    let instants: Vec<f64> = (0..n).map(|i| i as f64 * width).collect();
    let base = if case.seed == 0 { 1 } else { case.seed };
    let (mut sum, mut squares, mut last) = (vec![0.0; cells], vec![0.0; cells], vec![]);
    let (mut spent, mut zero) = (0, false);
    for k in 0..case.realizations {
        let path = paths::play(&paths::Case { net: case.net.clone(), state: splitmix64(base.wrapping_add(k)), limit: MOST_STEPS, instants: instants.clone() });
        if let End::Refused(number) = path.end {
            let none = || vec![0.0; cells];
            return Answer { outcome: Outcome::Stopped(number, k), tables: Some([none(), none(), none()]), zero };
        }
        spent += (path.end == End::Spent) as u64;
        zero |= path.way.zero;
        last = path.cells.unwrap();
        for (c, v) in last.iter().enumerate() {
            sum[c] += v;
            squares[c] += v * v;
        }
    }
    let count = case.realizations as f64;
    let mean: Vec<f64> = sum.iter().map(|s| s / count).collect();
    let deviation = squares.iter().zip(&mean).map(|(s, m)| if case.realizations == 1 { 0.0 } else { root(s / count - m * m) }).collect();
    Answer { outcome: Outcome::Averaged(spent), tables: Some([mean, deviation, last]), zero }
}

fn root(variance: f64) -> f64 {
    if variance < 0.0 { 0.0 } else { variance.sqrt() }
}

/// Whether the source gives the same means and deviations; None where it has no answer, or another rule.
pub fn source_agrees(case: &Case, answer: &Answer) -> Option<bool> {
    let (Outcome::Averaged(_), Some([mean, deviation, _]), false) = (answer.outcome, &answer.tables, answer.zero) else {
        return None;
    };
    let options = SsaOptions { horizon: case.horizon, samples: case.samples as usize, realizations: case.realizations as usize, seed: case.seed };
    let theirs = simulate_compiled(&filled(&case.net), &options).ok()?;
    let equal = |ours: &[f64], theirs: &[f64]| ours.len() == theirs.len() && ours.iter().zip(theirs).all(|(a, b)| same(*a, *b));
    let deviates = match &theirs.stddev {
        Some(sd) => case.realizations > 1 && equal(deviation, &sd.concat()),
        None => case.realizations == 1,
    };
    Some(equal(mean, &theirs.values.concat()) && deviates && theirs.times == sample_grid(case.horizon, case.samples as usize))
}

/// Whether the proved library gives the answer, and leaves the tables' further cells.
pub fn library_agrees(case: &Case, answer: &Answer) -> bool {
    let mut tables = [vec![BEFORE; CELLS], vec![BEFORE; CELLS], vec![BEFORE; CELLS]];
    let told = rattle::ensemble(&rattle::Fields::of(&case.net), case.samples, case.realizations, case.seed, case.horizon, &mut tables);
    let number = match answer.outcome {
        Outcome::Averaged(spent) => [0, spent, (case.realizations > 1) as u64],
        Outcome::TurnedDown(number) => [number, 0, 0],
        Outcome::Stopped(number, k) => [number, k, 0],
    };
    told == number && (0..3).all(|t| holds(&tables[t], answer.tables.as_ref().map(|a| &a[t][..]).unwrap_or(&[])))
}

/// Does the table begin with these cells, and is all behind them as it was?
pub fn holds(table: &[f64], cells: &[f64]) -> bool {
    let (front, rest) = table.split_at(cells.len());
    front.iter().zip(cells).all(|(a, b)| same(*a, *b)) && rest.iter().all(|x| x.to_bits() == BEFORE.to_bits())
}

// ---- as texts

pub fn text(case: &Case) -> String {
    let mut out = String::from("(net\n");
    for p in &case.net.places {
        writeln!(out, "(place {} {} {})", p.initial, p.capacity, p.label.text()).unwrap();
    }
    for m in &case.net.moves {
        write!(out, "(move {:016x} {:016x}", m.rate.to_bits(), m.delay.to_bits()).unwrap();
        for a in &m.arcs {
            match *a {
                Arc::Take { place, weight, kinetic } => write!(out, " (take {place} {weight} {})", kinetic as u8),
                Arc::Put { place, weight } => write!(out, " (put {place} {weight})"),
                Arc::Read { place, weight } => write!(out, " (read {place} {weight})"),
                Arc::Block { place, weight } => write!(out, " (block {place} {weight})"),
            }
            .unwrap();
        }
        out.push_str(")\n");
    }
    writeln!(out, "(run {} {} {} {:016x})\n)", case.samples, case.realizations, case.seed, case.horizon.to_bits()).unwrap();
    out
}

/// What pathrun prints: a fault of the net at the line at which it stands.
pub fn printed(case: &Case, answer: &Answer) -> String {
    let mut out = String::new();
    match answer.outcome {
        Outcome::TurnedDown(number @ 8..=16) | Outcome::Stopped(number, _) => writeln!(out, "(refused {number} 0)").unwrap(),
        Outcome::TurnedDown(_) => unreachable!("such texts are damaged, and are not drawn here"),
        Outcome::Averaged(_) => {
            let n = case.samples as usize;
            let [mean, deviation, _] = answer.tables.as_ref().unwrap();
            writeln!(out, "(result {} {n} {})", case.net.places.len(), case.realizations).unwrap();
            let mut lines = |word: &str, table: &[f64]| {
                for (place, row) in case.net.places.iter().zip(table.chunks(n)) {
                    write!(out, "({word} {}", place.label.text()).unwrap();
                    row.iter().for_each(|x| write!(out, " {:016x}", x.to_bits()).unwrap());
                    out.push_str(")\n");
                }
            };
            lines("mean", mean);
            if case.realizations > 1 {
                lines("dev", deviation);
            }
        }
    }
    out
}

// ---- drawn cases

/// How many steps a path of a drawn case may take, about.
const SHORT: u64 = 400;

pub fn drawn(draw: &mut Draw) -> Case {
    let mut net = paths::drawn_net(draw);
    let places = net.places.len() as u64;
    let samples = match draw.below(12) {
        0 => 2,
        1 => 1024.min(CELLS as u64 / places),
        2 => 1 + draw.below(2048),
        _ => 2 + draw.below(20.min(CELLS as u64 / places - 1)),
    };
    let realizations = match draw.below(40) {
        0..=9 => 1,
        10..=24 => 2,
        25..=34 => 17,
        35..=36 => 300,
        37 => 0,
        38 => 65_536 + draw.below(9),
        _ => 1 + draw.below(40),
    };
    // the second player is slow on large nets
    let realizations = if net.moves.len() > 12 && realizations <= 300 { realizations.min(17) } else { realizations };
    let seed = match draw.below(8) {
        0 => 0,
        1 => u64::MAX - draw.below(3),
        2 => 1 + draw.below(9),
        _ => draw.word(),
    };
    let mut horizon = match draw.below(16) {
        0 => paths::one_of(draw, &[0.0, -0.0, f64::NAN, -1.0, 2f64.powi(31), f64::INFINITY, f64::from_bits(1), 2f64.powi(-1000)]),
        1 => 2f64.powi(30),
        _ => paths::one_of(draw, &[0.5, 1.0, 2.0, 3.0, 6.0, 10.0]),
    };
    if draw.below(30) == 0 {
        paths::spoil(draw, &mut net);
    }
    // a path that would be long is cut by an earlier horizon, one that stands still by a net without transitions
    if player::fault(&net).is_none() && 0.0 < horizon && horizon <= 2f64.powi(30) {
        let tried = paths::play(&paths::Case { net: net.clone(), state: splitmix64(seed), limit: SHORT, instants: vec![horizon] });
        if tried.end == End::Spent && tried.clock > 0.0 {
            horizon = tried.clock;
        } else if tried.end == End::Spent {
            net.moves.clear();
        }
    }
    Case { net, samples, realizations, seed, horizon }
}

/// Cases to be written as texts: those that the reader takes whole.
fn drawn_texts(seed: u64) -> impl Iterator<Item = (String, Case, Answer)> {
    let mut draw = Draw::new(seed);
    std::iter::repeat_with(move || drawn(&mut draw))
        .map(|case| (text(&case), case))
        .filter(|(text, case)| text.len() <= 8192 && player::fault(&case.net).is_none())
        .map(|(text, case)| {
            let answer = play(&case);
            (text, case, answer)
        })
}

/// Writes the recorded sample, FILE.in and FILE.out: some drawn texts of few cells one after the other, and what pathrun prints for them.
pub fn record(file: &str) {
    let (mut input, mut output, mut count) = (String::new(), String::new(), 0);
    for (text, case, answer) in drawn_texts(crate::sample::SEED) {
        if text.len() > 800 || case.net.places.len() as u64 * case.samples > 60 && answer.tables.is_some() {
            continue;
        }
        assert_ne!(source_agrees(&case, &answer), Some(false));
        input.push_str(&text);
        output.push_str(&printed(&case, &answer));
        count += 1;
        if count == 60 {
            break;
        }
    }
    for (name, text) in [("in", &input), ("out", &output)] {
        let path = format!("{file}.{name}");
        std::fs::write(&path, text).unwrap_or_else(|e| panic!("{path}: {e}"));
    }
}

/// Writes K.net and K.out into the folder for so many cases drawn from the seed: texts for pathrun, and what it has to print.
pub fn texts(seed: u64, count: u64, folder: &str) {
    let mut source = 0;
    for (k, (text, case, answer)) in drawn_texts(seed).take(count as usize).enumerate() {
        if let Some(agrees) = source_agrees(&case, &answer) {
            assert!(agrees, "case {k}: the source differs from the rules as worked here");
            source += 1;
        }
        for (name, text) in [("net", &text), ("out", &printed(&case, &answer))] {
            std::fs::write(format!("{folder}/{k}.{name}"), text).unwrap_or_else(|e| panic!("{folder}/{k}.{name}: {e}"));
        }
    }
    println!("{count} texts, the source answers {source} of them");
}
