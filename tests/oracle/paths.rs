//! Whole paths: cases for the program crates/path_replay, and their answers. An answer is worked by the
//! second player; where the source's `realization` has an answer, which is the counts and the generator
//! after it, the two are held to be equal first.
use crate::draw::Draw;
use crate::nets::{self, example, Arc, Label, Move, Net, Place};
use crate::player::{self, amount, End, State, Way, MOST_STEPS, MOST_TOKENS};
use crate::rattle;
use crate::ssa::inside::filled;
use crate::ssa::{plog, realization, splitmix64, Xoshiro256};
use std::fmt::Write;

/// The cells of the program's table, and what stands in each before the call.
pub const CELLS: usize = 2048;
pub const BEFORE: f64 = 7.0;

#[derive(Clone)]
pub struct Case {
    pub net: Net,
    pub state: [u64; 4],
    pub limit: u64,
    pub instants: Vec<f64>,
}

#[derive(Clone)]
pub struct Answer {
    pub end: End,
    pub steps: u64,
    pub settled: usize,
    pub peak: u64,
    /// The steps whose a0 adds a propensity above 0 with some binomial inexact.
    pub rounded: u64,
    pub state: [u64; 4],
    /// The counts shown, place by place; none where nothing is touched.
    pub cells: Option<Vec<f64>>,
    /// The last reading of the clock.
    pub clock: f64,
    pub way: Way,
}

// ---- by the second player

fn turned_down(case: &Case, number: u64, cells: Option<Vec<f64>>) -> Answer {
    Answer { end: End::Refused(number), steps: 0, settled: 0, peak: 0, rounded: 0, state: case.state, cells, clock: 0.0, way: Way::default() }
}

/// What document 01 says of the case, with a table of 2,048 cells.
pub fn play(case: &Case) -> Answer {
    let (net, xs) = (&case.net, &case.instants);
    if let Some(number) = player::path_fault(net, xs, case.limit, CELLS) {
        return turned_down(case, number, None);
    }
    let mut table = vec![BEFORE; net.places.len() * xs.len()];
    let mut state = State::beginning(net, case.state, xs, case.limit, &mut table);
    let (end, way) = player::play_on(net, &mut state, case.limit, &mut table);
    if let End::Refused(number) = end {
        return turned_down(case, number, Some(table));
    }
    let State { clock, generator, steps, peak, rounded, .. } = state;
    Answer { end, steps, settled: state.settled(end), peak, rounded, state: generator, cells: Some(table), clock, way }
}

// ---- the source

/// Whether the source's answer to a case is what the second player says; None where the source has
/// none, or another rule: where the run is turned down or spent, and where r is 0.
pub fn source_agrees(case: &Case, answer: &Answer) -> Option<bool> {
    if matches!(answer.end, End::Refused(_)) || (answer.end == End::Spent && case.limit != MOST_STEPS) || answer.way.zero {
        return None;
    }
    let mut rng = Xoshiro256::from_state(case.state);
    let cells = realization(&filled(&case.net), &case.instants, &mut rng).concat();
    let ours = answer.cells.as_ref().unwrap();
    Some(rng.state() == answer.state && cells.len() == ours.len() && cells.iter().zip(ours).all(|(a, b)| a.to_bits() == b.to_bits()))
}

// ---- the program's form

/// A net as a row of numbers.
pub fn put_net(out: &mut String, net: &Net) {
    let mut n = |x: u64| writeln!(out, "{x:016x}").unwrap();
    n(net.places.len() as u64);
    n(net.moves.len() as u64);
    for p in net.places.iter().take(32) {
        n(p.initial as u64);
        n(p.capacity as u64);
        n(p.label.length as u64);
        p.label.room.chunks(8).for_each(|half| n(u64::from_be_bytes(half.try_into().unwrap())));
    }
    for m in net.moves.iter().take(64) {
        n(m.rate.to_bits());
        n(m.delay.to_bits());
        n(m.arcs.len() as u64);
        for a in m.arcs.iter().take(16) {
            n(a.kind());
            n(a.place() as u64);
            n(a.weight() as u64);
        }
    }
}

fn put_case(out: &mut String, case: &Case) {
    put_net(out, &case.net);
    let mut n = |x: u64| writeln!(out, "{x:016x}").unwrap();
    case.state.iter().for_each(|&w| n(w));
    n(case.limit);
    n(case.instants.len() as u64);
    case.instants.iter().take(CELLS).for_each(|x| n(x.to_bits()));
}

/// An end as the programs write it, by the number that the library tells.
pub fn end_word(number: u64) -> String {
    match number {
        100 => "quiet".into(),
        101 => "spent".into(),
        102 => "reached".into(),
        103 => "halted".into(),
        number => format!("refused {number}"),
    }
}

/// The line that the program writes for a case, by the numbers that the library tells: the end, the steps, the settled instants, the peak and the rounded
/// steps.
fn line(case: &Case, told: [u64; 5], state: [u64; 4], table: &[f64]) -> String {
    let mut out = end_word(told[0]);
    told[1..].iter().for_each(|n| write!(out, " {n}").unwrap());
    state.iter().for_each(|w| write!(out, " {w:016x}").unwrap());
    let places = case.net.places.len();
    let shown = if places > 32 { 0 } else { CELLS.min(places * case.instants.len() + 1) };
    table[..shown].iter().for_each(|x| write!(out, " {:016x}", x.to_bits()).unwrap());
    out.push('\n');
    out
}

impl Answer {
    pub fn line(&self, case: &Case) -> String {
        let mut table = vec![BEFORE; CELLS];
        if let Some(cells) = &self.cells {
            table[..cells.len()].copy_from_slice(cells);
        }
        line(case, [self.end.number(), self.steps, self.settled as u64, self.peak, self.rounded], self.state, &table)
    }
}

impl Answer {
    /// Does the peak show at no instant: is it above the sum of the counts at each?
    pub fn peak_unseen(&self, case: &Case) -> bool {
        let instants = case.instants.len();
        let sum = |cells: &[f64], i: usize| cells.iter().skip(i).step_by(instants).map(|&c| c as i64).sum::<i64>();
        self.cells.as_ref().is_some_and(|cells| (0..instants).all(|i| sum(cells, i) < self.peak as i64))
    }
}

/// The same line, worked by the proved library.
pub fn by_library(case: &Case) -> String {
    let mut table = vec![BEFORE; CELLS];
    let mut state = case.state;
    let told = rattle::path(&rattle::Fields::of(&case.net), &mut state, &case.instants, case.limit, &mut table);
    line(case, told, state, &table)
}

// ---- the cases at edges

pub fn take(place: usize, weight: i64) -> Arc {
    Arc::Take { place, weight, kinetic: true }
}

pub fn plain(place: usize, weight: i64) -> Arc {
    Arc::Take { place, weight, kinetic: false }
}

pub fn put(place: usize, weight: i64) -> Arc {
    Arc::Put { place, weight }
}

pub fn read(place: usize, weight: i64) -> Arc {
    Arc::Read { place, weight }
}

pub fn block(place: usize, weight: i64) -> Arc {
    Arc::Block { place, weight }
}

pub fn net(initial: &[i64], moves: Vec<(f64, f64, Vec<Arc>)>) -> Net {
    Net {
        places: initial.iter().enumerate().map(|(p, &initial)| Place { initial, capacity: 0, label: Label::numbered(p) }).collect(),
        moves: moves.into_iter().map(|(rate, delay, arcs)| Move { rate, delay, arcs }).collect(),
    }
}

pub fn bounded(mut net: Net, capacities: &[i64]) -> Net {
    net.places.iter_mut().zip(capacities).for_each(|(p, &c)| p.capacity = c);
    net
}

const STATE: [u64; 4] = [0x0123_4567_89AB_CDEF, 0xFEDC_BA98_7654_3210, 0x0F1E_2D3C_4B5A_6978, 0x8796_A5B4_C3D2_E1F0];

fn case(net: Net, limit: u64, instants: &[f64]) -> Case {
    Case { net, state: STATE, limit, instants: instants.to_vec() }
}

fn from(state: [u64; 4], mut case: Case) -> Case {
    case.state = state;
    case
}

/// 240 subscribers who begin calls at this rate, of as many lengths as there are delays: each call is a timer.
fn calls(delays: usize, rate: f64) -> Net {
    let mut counts = vec![0; delays + 1];
    counts[0] = 240;
    let begin = (1..=delays).map(|p| (rate, 0.0, vec![take(0, 1), put(p, 1)]));
    let end = (1..=delays).map(|p| (0.0, 0.5 * p as f64, vec![take(p, 1), put(0, 1)]));
    net(&counts, begin.chain(end).collect())
}

/// The cases that document 01 and docs/DECISIONS.md name.
pub fn edges() -> Vec<Case> {
    let most = MOST_STEPS;
    let sample = [0.0, 1.0, 2.0];
    let line = || net(&[20, 0], vec![(1.0, 0.0, vec![take(0, 1), put(1, 1)])]);
    let mut v = vec![];
    // document 01's net: 3 steps and quiet, or spent; the last instant at a completion, before and behind it
    for limit in [most, 3, 2, 1] {
        v.push(case(example(), limit, &sample));
    }
    for xs in [&[1.0][..], &[0.5], &[0.5, 1.0, 1.0], &[1.0, 1.0, 1.5], &[0.0, 3.0], &[2147483648.0]] {
        v.push(case(example(), most, xs));
        v.push(case(example(), 1, xs));
    }
    // no step at all; -0 reads as 0; no transition; nothing enabled
    for xs in [&[0.0][..], &[-0.0], &[-0.0, 0.0, -0.0]] {
        v.push(case(line(), most, xs));
    }
    v.push(case(line(), most, &[0.0, -0.0, 0.25]));
    v.push(case(net(&[3], vec![]), most, &sample));
    v.push(case(net(&[0], vec![(1.0, 0.0, vec![take(0, 1)])]), 1, &sample));
    // a limit met on the very step, one less, one more
    for limit in [1, 19, 20, 21, 22] {
        v.push(case(line(), limit, &[0.0, 1.0, 100.0]));
    }
    // kinetic total 16 and 17, in one take and in several, weight 0 counted as 1; plain takes do not count
    for w in [16, 17] {
        v.push(case(net(&[40, 0], vec![(1e-9, 0.0, vec![take(0, w), put(1, 1)])]), most, &sample));
        v.push(case(net(&[40, 9, 9, 0], vec![(1e-9, 0.0, vec![take(0, w - 3), take(1, 2), take(2, 0), plain(3, 0)]), (0.0, 0.0, vec![put(3, 1)])]), 50, &sample));
    }
    v.push(case(net(&[90, 9], vec![(1.0, 0.0, vec![plain(0, 30), take(1, 1)])]), most, &sample));
    // timers: 256, a 257th, and one that starts as another ends
    for n in [255, 256, 257] {
        v.push(case(net(&[n, 0], vec![(0.0, 1.0, vec![take(0, 1), put(1, 1)])]), most, &sample));
        v.push(case(net(&[n, 0], vec![(0.0, 1.0, vec![take(0, 1), put(1, 1)]), (0.0, 1.0, vec![take(1, 1), put(0, 1)])]), 300, &sample));
    }
    v.push(case(net(&[256, 0], vec![(0.0, 1.0, vec![take(0, 1), put(0, 2)])]), most, &sample));
    // a timer list that comes round many times: equal times, of which the counts show the last to complete; one delay, and eight
    let swap = |from: usize, to: usize| (0.0, 1.0, vec![take(from, 1), put(to, 1)]);
    for limit in [1001, 2002, 4003] {
        v.push(case(net(&[120, 120, 0, 0], vec![swap(0, 2), swap(1, 3), swap(2, 0), swap(3, 1)]), limit, &[0.0, 100.0]));
    }
    for (delays, rate) in [(1, 10.0), (8, 0.25)] {
        v.push(case(calls(delays, rate), 3000, &[0.0, 2.0, 5.0, 100.0]));
    }
    // r = 0: the first with positive propensity
    let dead = || net(&[0, 4, 0, 0], vec![(1.0, 0.0, vec![take(0, 1), put(2, 1)]), (0.5, 0.0, vec![take(1, 1), put(3, 1)]), (0.5, 0.0, vec![take(1, 1), put(2, 5)])]);
    for limit in [1, 2, most] {
        v.push(from([1, 2, 3, 4], case(dead(), limit, &[0.0, 50.0])));
    }
    // the zero state: the clock stands still, and r is 0
    for limit in [1, 5, 20, 21, 22] {
        v.push(from([0; 4], case(line(), limit, &sample)));
    }
    v.push(from([0; 4], case(net(&[2], vec![(1.0, 0.0, vec![take(0, 1), put(0, 1)])]), 40, &[0.0, 0.0, 1.0])));
    // a completion exactly at t + dt: by a clock that stands still, and by a delay set to the wait and to its neighbours
    v.push(from([0; 4], case(net(&[1, 0, 0, 0, 0], vec![
        (0.0, 1.0, vec![take(0, 1), put(1, 1), put(2, 1)]),
        (0.0, 2f64.powi(-60), vec![take(1, 1), put(3, 1)]),
        (1.0, 0.0, vec![take(2, 1), put(4, 1)]),
    ]), most, &sample)));
    let wait = -plog(1.0 - Xoshiro256::from_state(STATE).uniform()) / 2.0;
    let near = |d: i64| f64::from_bits(wait.to_bits().wrapping_add_signed(d));
    for d in [-1, 0, 1] {
        let race = net(&[1, 2, 0, 0], vec![(0.0, near(d), vec![take(0, 1), put(2, 1)]), (1.0, 0.0, vec![take(1, 1), put(3, 1)])]);
        for e in [-1, 0, 1] {
            v.push(case(race.clone(), 1, &[0.0, near(e)]));
        }
        v.push(case(race.clone(), 1, &[0.0, 9.0]));
        v.push(case(race, most, &[near(-1), near(0), near(1), 9.0]));
    }
    // the wait itself as the last instant: fired, not shown
    for e in [-1, 0, 1] {
        v.push(case(net(&[2, 0], vec![(1.0, 0.0, vec![take(0, 1), put(1, 1)])]), most, &[near(e)]));
        v.push(case(net(&[2, 0], vec![(1.0, 0.0, vec![take(0, 1), put(1, 1)])]), 1, &[near(e)]));
    }
    // equal completion times leave first in, first out; by transition, by pass and by step
    let equal = || net(&[2, 1, 0, 0, 0, 0], vec![
        (0.0, 0.5, vec![take(2, 1), put(3, 1)]),
        (0.0, 1.0, vec![take(0, 1), put(4, 1)]),
        (0.0, 0.5, vec![take(1, 1), put(2, 1)]),
        (0.0, 1.0, vec![take(3, 1), put(5, 1)]),
        (0.0, 1.0, vec![take(4, 1), put(0, 1), put(3, 1)]),
    ]);
    for limit in 1..=8 {
        v.push(case(equal(), limit, &[0.0, 0.5, 1.0, 1.0, 1.5, 4.0]));
    }
    // counts at 2^53: kept, reached, passed; judged after all of a firing's takes and puts; by a completion at and behind the last instant
    let full = MOST_TOKENS;
    v.push(case(net(&[full], vec![(1.0, 0.0, vec![put(0, 1)])]), most, &sample));
    v.push(case(net(&[full], vec![(2f64.powi(-53), 0.0, vec![take(0, 1), put(0, 1)])]), 30, &sample));
    v.push(case(net(&[full, 5], vec![(1.0, 0.0, vec![plain(0, 2), take(1, 1), put(0, 1), put(0, 1)])]), most, &[0.0, 9.0]));
    v.push(case(net(&[full, 5], vec![(1.0, 0.0, vec![put(0, 1), plain(0, 1), take(1, 1)])]), most, &[0.0, 9.0]));
    for initial in [full - 1, full - 2] {
        v.push(case(net(&[initial, 2], vec![(1.0, 0.0, vec![take(1, 1), put(0, 1)])]), most, &[0.0, 99.0]));
    }
    for end in [0.5, 1.0, 1.5] {
        v.push(case(net(&[1, full], vec![(0.0, 1.0, vec![take(0, 1), put(1, 1)])]), most, &[0.0, end]));
    }
    v.push(case(net(&[full, full, full, full], vec![]), most, &sample));
    // 14 and 15 in one run: whichever comes first
    v.push(case(net(&[256, full], vec![(0.0, 1.0, vec![take(0, 1), put(0, 2), put(1, 1)])]), most, &sample));
    // capacity: judged at the start, so a completion may pass it; an initial count above it; net change 0 and below
    let filling = vec![(0.0, 1.0, vec![take(0, 1), put(1, 2)]), (0.0, 1.0, vec![take(0, 1), put(1, 1)])];
    v.push(case(bounded(net(&[4, 0], filling), &[0, 2]), most, &[0.0, 1.0, 1.5, 2.5]));
    v.push(case(bounded(net(&[9, 5], vec![(1.0, 0.0, vec![take(0, 1), put(1, 1)])]), &[3, 3]), most, &sample));
    v.push(case(bounded(net(&[5, 1], vec![(1.0, 0.0, vec![take(0, 2), put(0, 2), put(1, 1)]), (1.0, 0.0, vec![take(0, 2), put(0, 1)])]), &[2, 6]), most, &[0.0, 9.0]));
    v.push(case(bounded(net(&[9, 0], vec![(0.0, 0.0, vec![take(0, 0), put(1, 0), put(1, 0)])]), &[0, 5]), most, &[0.0, 9.0]));
    // reads and inhibitors, at their weight and beside it; weight 0 as 1; several on one place
    for n in [1, 2, 3] {
        v.push(case(net(&[n, 6, 0], vec![(1.0, 0.0, vec![read(0, 2), take(1, 1), put(2, 1)])]), most, &[0.0, 9.0]));
        v.push(case(net(&[n, 6, 0], vec![(1.0, 0.0, vec![block(0, 2), take(1, 1), put(2, 1)])]), most, &[0.0, 9.0]));
        v.push(case(net(&[n, 6, 0], vec![(1.0, 0.0, vec![block(0, 9), read(0, 0), block(0, 3), read(0, 1), take(1, 1), put(2, 1)])]), most, &[0.0, 9.0]));
        v.push(case(net(&[n - 1, 6, 0], vec![(0.0, 0.5, vec![block(0, 0), take(1, 1), put(2, 1), put(0, 1)])]), most, &[0.0, 9.0]));
    }
    // a taken place that is read too: enabled by the count before the take
    v.push(case(net(&[5, 0], vec![(1.0, 0.0, vec![take(0, 1), read(0, 2), block(0, 5), put(1, 1)]), (1.0, 0.0, vec![take(0, 3), put(0, 2)])]), most, &[0.0, 50.0]));
    // rates at both ends and a delay at the end of its domain
    v.push(case(net(&[3, 0], vec![(2f64.powi(100), 0.0, vec![take(0, 1), put(1, 1)])]), most, &sample));
    v.push(case(net(&[3, 0], vec![(2f64.powi(-100), 0.0, vec![take(0, 1), put(1, 1)])]), most, &[0.0, 2147483648.0]));
    v.push(case(net(&[3, 0], vec![(1.0, 2f64.powi(30), vec![take(0, 1), put(1, 1)]), (-0.0, -0.0, vec![take(1, 2)])]), most, &[0.0, 1073741824.0, 2147483648.0]));
    v.push(case(net(&[3, 0], vec![(1.0, f64::from_bits(1), vec![take(0, 1), put(1, 1)])]), most, &sample));
    // tables of 2,048 cells and of more; 1,024 instants
    let many: Vec<f64> = (0..1024).map(|i| i as f64 / 64.0).collect();
    v.push(case(net(&[20, 0], vec![(0.125, 0.0, vec![take(0, 1), put(1, 1)])]), most, &many));
    v.push(case(net(&[20, 0, 0], vec![(0.125, 0.0, vec![take(0, 1), put(1, 1)])]), most, &many));
    // 12, 13, and 12 before 13 before 11; a net's fault before them
    let over: Vec<f64> = (0..1025).map(|i| i as f64).collect();
    for xs in [&[][..], &over, &[1.0, 0.5], &[0.0, f64::NAN], &[f64::NAN], &[-1.0], &[0.0, f64::INFINITY], &[2147483649.0], &[-f64::from_bits(1)]] {
        v.push(case(line(), most, xs));
    }
    for limit in [0, most + 1, u64::MAX] {
        v.push(case(line(), limit, &sample));
    }
    v.push(case(net(&[20, 0, 0], vec![]), 0, &[1.0, 0.5]));
    v.push(case(net(&[20, 0, 0], vec![]), 0, &many));
    v.push(case(net(&[full + 1], vec![]), 0, &[1.0, 0.5]));
    v.push(case(net(&[0; 33], vec![]), most, &sample));
    v.push(case(net(&[], vec![]), most, &sample));
    v.push(case(net(&[1], vec![(1.0, 1.0, vec![put(0, 1)])]), most, &sample));
    v.push(case(net(&[1], vec![(1.0, 0.0, vec![take(0, 1), plain(0, 1)])]), most, &sample));
    v.push(case(net(&[1], vec![(1.0, 0.0, vec![take(1, 1)])]), most, &sample));
    // rounded binomials: the last exact count and the first that is not; 79 over 16 is exact though a product on the way is rounded
    for (m, w) in [(79, 16), (80, 16), (124, 11), (125, 11), (1141, 6), (1142, 6), (134217729, 2), (134217730, 2), (full, 1), (full, 2), (full, 16)] {
        v.push(case(net(&[m, 0], vec![(2f64.powi(-100), 0.0, vec![take(0, w), put(1, 1)])]), 3, &[0.0, 1.0]));
    }
    // none of these is rounded: not kinetic, delayed, shut by a read, without room; then one beside them that is
    let shut = |more: bool| {
        let mut moves = vec![
            (1.0, 0.0, vec![plain(0, 16), put(1, 1)]),
            (1.0, 1.0, vec![take(0, 16), put(1, 1)]),
            (1.0, 0.0, vec![take(0, 16), read(2, 1)]),
            (1.0, 0.0, vec![take(0, 16), put(3, 1)]),
        ];
        if more {
            moves.push((2f64.powi(-100), 0.0, vec![take(0, 16)]));
        }
        bounded(net(&[1000, 0, 0, 1], moves), &[0, 60, 0, 1])
    };
    for more in [false, true] {
        v.push(case(shut(more), 70, &[0.0, 0.5, 4.0]));
    }
    // a rounded step that a completion beats, and one that stops past the last instant
    let beaten = net(&[500, 1, 0], vec![(2f64.powi(-100), 0.0, vec![take(0, 9)]), (0.0, 1.0, vec![take(1, 1), put(2, 1)])]);
    for end in [0.5, 1.0, 1.5] {
        v.push(case(beaten.clone(), most, &[0.0, end]));
    }
    // labels: 17 and 18 behind 4, place by place and before the transitions; bytes behind a length do not matter
    let labelled = |labels: &[&[u8]]| {
        let mut net = net(&vec![1; labels.len()], vec![(1.0, 0.0, vec![put(0, 1)])]);
        net.places.iter_mut().zip(labels).for_each(|(p, l)| p.label = Label::new(l));
        case(net, most, &sample)
    };
    let sixteen = b"0123456789-abcde";
    for labels in [&[&b"a"[..]][..], &[b"-"], &[sixteen], &[b""], &[b"0123456789-abcdef"], &[b"A"], &[b"a b"], &[b"a)"], &[b"\xc8"], &[b"a\n"], &[b"a", b"a"]] {
        v.push(labelled(labels));
    }
    for labels in [&[&b"a"[..], b"b", b"a"][..], &[b"ab", b"a"], &[b"a", b"ab"], &[b"a", b""], &[b"", b""], &[sixteen, sixteen], &[b"a", b"A", b"a"]] {
        v.push(labelled(labels));
    }
    let mut behind = labelled(&[b"a", b"a"]);
    behind.net.places[1].label.room[1] = b'b';
    v.push(behind.clone());
    behind.net.places[0].label.length = 17;
    v.push(behind.clone());
    behind.net.places[1].initial = MOST_TOKENS + 1;
    v.push(behind.clone());
    behind.net.places[0].initial = MOST_TOKENS + 1;
    v.push(behind);
    v.extend(peaks().into_iter().map(|(case, _)| case));
    v
}

/// Cases whose peak document 02's order 2 gives by pencil, whatever is drawn.
pub fn peaks() -> Vec<(Case, u64)> {
    let most = MOST_STEPS;
    let mut v = vec![];
    // document 01's net: at 1 both subscribers are in timers; a limit, and a last instant before the completions
    for (limit, xs) in [(most, &[0.0, 1.0, 2.0][..]), (2, &[0.0, 1.0, 2.0]), (1, &[0.0, 1.0, 2.0]), (most, &[0.5])] {
        v.push((case(example(), limit, xs), 2));
    }
    // five are put at 1 and start again before the clock moves on: no instant shows them; the completion at 2 puts one
    let brief = || net(&[1, 0, 0], vec![(0.0, 1.0, vec![take(0, 1), put(1, 5)]), (0.0, 1.0, vec![take(1, 5), put(2, 1)])]);
    for (xs, peak) in [(&[0.0, 1.0, 2.0][..], 5), (&[0.0, 3.0], 5), (&[1.0], 5), (&[0.5], 1), (&[0.0, f64::from_bits(1.0f64.to_bits() - 1)], 1)] {
        v.push((case(brief(), most, xs), peak));
    }
    // the step that stops past the last instant starts the five: they wait, and are counted once
    v.push((case(brief(), most, &[0.0, 1.5]), 5));
    v.push((case(brief(), 1, &[0.0, 1.5]), 5));
    // the peak is at the start, which is a moment though it is no instant; less is put than taken, by firings and by completions
    v.push((case(net(&[9, 0], vec![(1.0, 0.0, vec![take(0, 3), put(1, 1)])]), most, &[50.0]), 9));
    v.push((case(net(&[9, 0], vec![(0.0, 1.0, vec![take(0, 3), put(1, 1)])]), most, &[50.0]), 9));
    v.push((case(net(&[9, 0], vec![]), most, &[50.0]), 9));
    // the same transition by a timer and by races: what is put more is counted when it is put
    v.push((case(net(&[4, 0], vec![(0.0, 1.0, vec![take(0, 1), put(1, 3)])]), most, &[0.5, 2.0]), 12));
    v.push((case(net(&[4, 0], vec![(1.0, 0.0, vec![take(0, 1), put(1, 3)])]), most, &[5000.0]), 12));
    // inputs that are not kinetic wait too, and a weight of 0 as 1; reads and inhibitors hold nothing
    v.push((case(net(&[30, 4, 2, 0], vec![(0.0, 1.0, vec![plain(0, 30), take(1, 0), read(2, 2), block(3, 1)])]), most, &[0.5, 2.0]), 36));
    // 256 timers, each for a weight of its own; two equal ones that take different weights
    v.push((case(net(&[256, 512, 0], vec![(0.0, 1.0, vec![take(0, 1), plain(1, 2), put(2, 3)])]), most, &[0.5, 2.0]), 768));
    v.push((case(net(&[3, 0], vec![(0.0, 1.0, vec![take(0, 2), put(1, 1)]), (0.0, 1.0, vec![take(0, 1), put(1, 4)])]), most, &[0.0, 5.0]), 5));
    // 31 full places, and what 256 timers took from 15 of them put there again
    let full = MOST_TOKENS;
    let heavy: Vec<Arc> = (0..15).map(|p| plain(p, 1_000_000)).chain([take(31, 1)]).collect();
    let again: Vec<Arc> = (0..15).map(|p| put(p, 1_000_000)).collect();
    let mut initial = [full; 32];
    initial[31] = 256;
    for firings in [0, 1, 256] {
        let moves = vec![(0.0, 2f64.powi(20), heavy.clone()), (1.0, 0.0, again.clone())];
        let end = if firings == 0 { 0.0 } else { 2f64.powi(19) };
        v.push((case(net(&initial, moves), firings.max(1), &[end]), 31 * full as u64 + 256 + firings * 15_000_000));
    }
    v
}

// ---- cases drawn

pub fn one_of<T: Copy>(draw: &mut Draw, xs: &[T]) -> T {
    xs[draw.below(xs.len() as u64) as usize]
}

fn drawn_arcs(draw: &mut Draw, places: usize, timed: bool, most: u64) -> Vec<Arc> {
    let mut arcs = vec![];
    let mut taken = vec![false; places];
    let mut kinetic_left = 16;
    for i in 0..1 + draw.below(most) {
        let place = draw.below(places as u64) as usize;
        let weight = match draw.below(40) {
            0..=3 => 0,
            4..=9 => 2,
            10..=12 => 3 + draw.below(6) as i64,
            13 => 1 + draw.below(1000) as i64,
            _ => 1,
        };
        let kind = if i == 0 && (timed || draw.below(4) > 0) { 0 } else { draw.below(10) };
        match kind {
            0..=3 if !taken[place] => {
                let kinetic = draw.below(5) > 0 && amount(weight) <= kinetic_left;
                if kinetic {
                    kinetic_left -= amount(weight);
                }
                taken[place] = true;
                arcs.push(Arc::Take { place, weight, kinetic });
            }
            8 => arcs.push(read(place, weight)),
            9 => arcs.push(block(place, weight * (1 + draw.below(12) as i64))),
            _ => arcs.push(put(place, weight)),
        }
    }
    // line order is free
    for i in (1..arcs.len()).rev() {
        arcs.swap(i, draw.below(i as u64 + 1) as usize);
    }
    arcs
}

pub fn drawn_net(draw: &mut Draw) -> Net {
    let (places, moves, arcs) = match draw.below(16) {
        0 => (32, 64, 16),
        1 => (1 + draw.below(32), draw.below(65), 1 + draw.below(16)),
        2..=5 => (1 + draw.below(12), 1 + draw.below(16), 6),
        _ => (1 + draw.below(5), 1 + draw.below(6), 4),
    };
    let crowded = draw.below(6) == 0;
    let with_delays = draw.below(3) > 0;
    let places: Vec<Place> = (0..places)
        .map(|p| Place {
            initial: match draw.below(20) {
                0..=3 => 0,
                4 => draw.below(1000) as i64,
                5..=6 if crowded => MOST_TOKENS - draw.below(4) as i64,
                7 if crowded => draw.below(1 << 53) as i64,
                _ => draw.below(20) as i64,
            },
            capacity: match draw.below(12) {
                0..=2 => 1 + draw.below(30) as i64,
                3 => MOST_TOKENS - draw.below(3) as i64,
                _ => 0,
            },
            label: Label::numbered(p as usize),
        })
        .collect();
    let moves = (0..moves)
        .map(|_| {
            let timed = with_delays && draw.below(3) == 0;
            drawn_move(draw, places.len(), timed, arcs)
        })
        .collect();
    Net { places, moves }
}

/// A transition over so many places, of at most so many arcs.
pub fn drawn_move(draw: &mut Draw, places: usize, timed: bool, arcs: u64) -> Move {
    Move {
        rate: match draw.below(24) {
            0 => 2f64.powi(draw.below(201) as i32 - 100),
            1..=4 => 0.0,
            5 => -0.0,
            _ => (draw.unit() * 8.0 - 5.0).exp2(),
        },
        delay: match draw.below(16) {
            _ if !timed => 0.0,
            0 => 2f64.powi(draw.below(130) as i32 - 100),
            1..=9 => one_of(draw, &[0.25, 0.5, 0.5, 1.0, 1.0, 1.5, 2.0]),
            _ => draw.unit() * 4.0,
        },
        arcs: drawn_arcs(draw, places, timed, arcs),
    }
}

/// A fault put into a net, so that it is turned down.
pub fn spoil(draw: &mut Draw, net: &mut Net) {
    let p = draw.below(net.places.len() as u64) as usize;
    match draw.below(6) {
        0 => net.places[p].initial = MOST_TOKENS + 1,
        1 => net.places[p].capacity = MOST_TOKENS + 1 + draw.below(9) as i64,
        n => {
            if net.moves.is_empty() {
                return;
            }
            let j = draw.below(net.moves.len() as u64) as usize;
            let m = &mut net.moves[j];
            match n {
                2 => m.arcs.insert(0, read(net.places.len(), 1)),
                3 => m.rate = one_of(draw, &[f64::NAN, -1.0, 2f64.powi(-101), 2f64.powi(101), f64::INFINITY]),
                4 => m.delay = one_of(draw, &[f64::NAN, -1.0, 2f64.powi(31), 0.5]),
                _ => m.arcs.push(take(p, 1 + draw.below(17) as i64)),
            }
        }
    }
}

/// A label that is accepted: one that no place has whose label is numbered.
pub fn drawn_label(draw: &mut Draw, p: usize) -> Label {
    let mut text = format!("{p}-").into_bytes();
    for _ in 0..draw.below(17 - text.len() as u64) {
        text.push(one_of(draw, b"abcdefghijklmnopqrstuvwxyz0123456789-"));
    }
    let mut label = Label::new(&text);
    // bytes behind the length do not matter
    label.room[text.len()..].iter_mut().for_each(|b| *b = draw.below(256) as u8);
    label
}

/// Other labels, all accepted.
pub fn relabel(draw: &mut Draw, net: &mut Net) {
    for (p, place) in net.places.iter_mut().enumerate() {
        place.label = drawn_label(draw, p);
    }
}

/// A label damaged in one of the ways that 17 and 18 speak of.
pub fn spoil_label(draw: &mut Draw, net: &mut Net) {
    let p = draw.below(net.places.len() as u64) as usize;
    let q = draw.below(net.places.len() as u64) as usize;
    let mut label = net.places[p].label;
    let at = draw.below(label.length.clamp(1, 16) as u64) as usize;
    match draw.below(6) {
        0 => label.length = 0,
        1 => label.length = 17 + draw.below(3) as usize,
        2 => label.room[at] = one_of(draw, b"AZ ()_.\n\0/:@[`{\x7f\xc8\xff"),
        3 => label.length = one_of(draw, &[16, 1 << 20, usize::MAX]),
        // the label of another place, or equal to it but for bytes behind its length
        4 => label = net.places[q].label,
        _ => {
            label = net.places[q].label;
            label.room[label.length.min(16)..].iter_mut().for_each(|b| *b = draw.below(256) as u8);
        }
    }
    net.places[p].label = label;
}

fn drawn_instants(draw: &mut Draw, places: usize) -> Vec<f64> {
    let n = match draw.below(12) {
        0 => 1,
        1 => 1 + draw.below(1024.min((CELLS / places) as u64)) as usize,
        _ => 1 + draw.below(12) as usize,
    };
    let end = match draw.below(12) {
        0 => (draw.unit() * 40.0 - 10.0).exp2(),
        _ => one_of(draw, &[0.5, 1.0, 2.0, 3.0, 4.0, 6.0, 10.0]),
    };
    let mut xs: Vec<f64> = match draw.below(3) {
        0 => (0..n).map(|i| i as f64 * (end / (n.max(2) - 1) as f64)).collect(),
        1 => (0..n).map(|_| (draw.unit() * end * 4.0).ceil() / 4.0).collect(),
        _ => (0..n).map(|_| draw.unit() * end).collect(),
    };
    for i in 1..n {
        if draw.below(10) == 0 {
            xs[i] = xs[i - 1];
        }
    }
    if draw.below(4) == 0 {
        xs[0] = one_of(draw, &[0.0, -0.0]);
    }
    xs.sort_by(|a, b| a.partial_cmp(b).unwrap());
    xs
}

fn drawn_state(draw: &mut Draw) -> [u64; 4] {
    match draw.below(12) {
        0 => [0; 4],
        1 => [1, 2, 3, 4],
        2..=3 => draw.state(),
        _ => [draw.word(), draw.word(), draw.word(), draw.word()],
    }
}

/// How many steps a drawn run may take.
const SHORT: u64 = 2000;

/// A case with its answer. A run that would be long is cut by its limit or by an earlier last instant.
pub fn drawn(draw: &mut Draw) -> (Case, Answer) {
    let mut net = drawn_net(draw);
    if draw.below(25) == 0 {
        spoil(draw, &mut net);
    }
    let instants = drawn_instants(draw, net.places.len());
    let mut case = Case { net, state: drawn_state(draw), limit: SHORT, instants };
    let mut answer = play(&case);
    if answer.end == End::Spent && answer.clock > 0.0 && draw.below(4) > 0 {
        let share = answer.clock / case.instants.last().unwrap() * (0.2 + 0.7 * draw.unit());
        case.instants.iter_mut().for_each(|x| *x *= share);
        answer = play(&case);
    }
    case.limit = match draw.below(10) {
        0 => 1 + draw.below(SHORT),
        1..=2 => 1 + draw.below(answer.steps + 2),
        _ if answer.end == End::Spent => SHORT,
        _ => MOST_STEPS,
    };
    answer = play(&case);
    (case, answer)
}

/// Where a product of the first w factors can first be rounded, and the largest count.
const EDGES: [u64; 9] = [94906266, 262145, 15248, 2932, 1015, 290, 146, 75, 64];

/// A case with kinetic weights from 2 to 16 at large counts, and its answer.
pub fn heavy(draw: &mut Draw) -> (Case, Answer) {
    let places = 1 + draw.below(4) as usize;
    let counts: Vec<i64> = (0..places)
        .map(|_| match draw.below(6) {
            0 => MOST_TOKENS - draw.below(64) as i64,
            1 => (1 << 40) + draw.below(64) as i64 - 32,
            2 => (1 << (5 + draw.below(48))) + draw.below(9) as i64 - 4,
            3 => draw.below(300) as i64,
            _ => (one_of(draw, &EDGES) + draw.below(80)) as i64,
        })
        .collect();
    let moves = (0..1 + draw.below(4))
        .map(|_| {
            let p = draw.below(places as u64) as usize;
            let w = 2 + draw.below(15) as i64;
            let mut arcs = vec![Arc::Take { place: p, weight: w, kinetic: draw.below(8) > 0 }, put(draw.below(places as u64) as usize, w - draw.below(2) as i64)];
            if draw.below(4) == 0 && places > 1 {
                arcs.push(take((p + 1) % places, (16 - w).clamp(0, 3)));
            }
            // kinetic weights of more than 16 together are refused, and so is 17 in one
            let delay = if draw.below(6) == 0 { one_of(draw, &[2f64.powi(-60), 0.5, 1.0]) } else { 0.0 };
            (2f64.powi(draw.below(101) as i32 - 100), delay, arcs)
        })
        .collect();
    let end = 2f64.powi(draw.below(91) as i32 - 60);
    let case = Case { net: net(&counts, moves), state: drawn_state(draw), limit: 1 + draw.below(60), instants: vec![0.0, end / 2.0, end] };
    let answer = play(&case);
    (case, answer)
}

// ---- batches

#[derive(Default)]
struct Batch {
    input: String,
    answers: String,
    cases: u64,
    source: u64,
    differ: u64,
    kinds: std::collections::BTreeMap<String, u64>,
}

impl Batch {
    fn add(&mut self, case: &Case, answer: &Answer) {
        self.cases += 1;
        if let Some(agrees) = source_agrees(case, answer) {
            self.source += 1;
            if !agrees {
                self.differ += 1;
                eprintln!("case {}: the source differs from the rules as worked here", self.cases);
            }
        }
        *self.kinds.entry(format!("{:?}", answer.end)).or_default() += 1;
        if answer.rounded > 0 {
            *self.kinds.entry("with rounded steps".into()).or_default() += 1;
        }
        put_case(&mut self.input, case);
        self.answers.push_str(&answer.line(case));
    }

    fn write(&self, input: &str, answers: &str) {
        for (path, text) in [(input, &self.input), (answers, &self.answers)] {
            std::fs::write(path, text).unwrap_or_else(|e| panic!("{path}: {e}"));
        }
        let kinds: Vec<String> = self.kinds.iter().map(|(k, n)| format!("{k} {n}")).collect();
        println!("{} paths ({}); the source answers {} of them, {} otherwise", self.cases, kinds.join(", "), self.source, self.differ);
        assert_eq!(self.differ, 0);
    }
}

/// Writes FILE.in and FILE.out: so many cases drawn from the seed.
pub fn batch(seed: u64, count: u64, file: &str) {
    let mut draw = Draw::new(seed);
    let mut batch = Batch::default();
    for _ in 0..count {
        let (case, answer) = drawn(&mut draw);
        batch.add(&case, &answer);
    }
    batch.write(&format!("{file}.in"), &format!("{file}.out"));
}

/// Writes the recorded sample: the cases at edges, and some drawn ones of few cells and of heavy weights.
pub fn record(folder: &str) {
    let mut draw = Draw::new(crate::sample::SEED);
    let mut batch = Batch::default();
    for case in edges() {
        batch.add(&case, &play(&case));
    }
    let mut left = 40;
    while left > 0 {
        let (case, answer) = drawn(&mut draw);
        if case.net.places.len() * case.instants.len() <= 60 && answer.steps <= 400 {
            batch.add(&case, &answer);
            left -= 1;
        }
    }
    for _ in 0..20 {
        let (case, answer) = heavy(&mut draw);
        batch.add(&case, &answer);
    }
    batch.write(&format!("{folder}/stdin"), &format!("{folder}/stdout"));
}

// ---- for the benchmark

/// 64 instants from 0 to the end.
fn scaled(end: f64) -> Vec<f64> {
    (0..64).map(|i| i as f64 / 63.0 * end).collect()
}

/// Four nets, small to large, and one that takes two tokens at a time, each with a run of some thousand steps.
pub fn measured() -> Vec<(&'static str, Case)> {
    let small = net(&[1_000_000, 0], vec![(1.0, 0.0, vec![take(0, 1), put(1, 1)])]);
    let ring = |j: usize| if j % 4 == 3 { (0.0, 0.125, vec![take(j % 8, 1), put((j + 3) % 8, 1)]) } else { (1.0, 0.0, vec![take(j % 8, 1), put((j + 1) % 8, 1)]) };
    let middle = net(&[20; 8], (0..16).map(ring).collect());
    let wide = |j: usize| {
        let mut arcs = vec![];
        for i in 0..4 {
            let p = j + 5 * i;
            arcs.extend([take(p % 32, 1), put((p + 3) % 32, 1), read((p + 1) % 32, 1), block((p + 2) % 32, 1000)]);
        }
        (2f64.powi(-20), 0.0, arcs)
    };
    let large = net(&[50; 32], (0..64).map(wide).collect());
    // one or two takes and one put each, of as many tokens as are taken
    let thin = |j: usize| {
        let mut arcs = vec![take(j % 32, 1)];
        if j % 2 == 1 {
            arcs.push(take((7 * j + 3) % 32, 1));
        }
        arcs.push(put((5 * j + 11) % 32, arcs.len() as i64));
        (if j % 2 == 1 { 0.0625 } else { 1.0 }, 0.0, arcs)
    };
    let sparse = net(&[20; 32], (0..64).map(thin).collect());
    let pairs = net(&[200; 8], (0..16).map(|j| (2f64.powi(-7), 0.0, vec![take(j % 8, 2), put((j + 1) % 8, 2)])).collect());
    vec![
        ("2 places, 1 transition", case(small, MOST_STEPS, &scaled(0.01))),
        ("8 places, 16 transitions, timers", case(middle, MOST_STEPS, &scaled(40.0))),
        ("32 places, 64 transitions, sparse", case(sparse, MOST_STEPS, &scaled(20.0))),
        ("32 places, 64 transitions, 16 arcs", case(large, MOST_STEPS, &scaled(20.0))),
        ("8 places, 16 transitions, weight 2", case(pairs, MOST_STEPS, &scaled(2.0))),
    ]
}

/// Nets with some 200 running timers: one delay, so that a new timer goes behind all others, and eight, so that it goes among them.
pub fn measured_timers() -> Vec<(&'static str, Case)> {
    vec![
        ("200 timers, one delay", case(calls(1, 10.0), MOST_STEPS, &scaled(10.0))),
        ("200 timers, eight delays", case(calls(8, 0.25), MOST_STEPS, &scaled(50.0))),
    ]
}

/// Nets of heavier takes: within the counts up to which their ways are exact, and beyond them, where whole numbers decide at every step.
pub fn measured_beyond() -> Vec<(&'static str, Case)> {
    let ring = |places: usize, transitions: usize, count: i64, w: i64, rate: i32| {
        net(&vec![count; places], (0..transitions).map(|j| (2f64.powi(rate), 0.0, vec![take(j % places, w), put((j + 1) % places, w)])).collect())
    };
    vec![
        ("8 places, weight 3, of 200", case(ring(8, 16, 200, 3, -14), MOST_STEPS, &scaled(2.0))),
        ("8 places, weight 16, of 40", case(ring(8, 16, 40, 16, -32), MOST_STEPS, &scaled(2.0))),
        ("8 places, weight 16, of 60", case(ring(8, 16, 60, 16, -40), MOST_STEPS, &scaled(2.0))),
        ("2 places, weight 2, of 2 * 10^8", case(ring(2, 2, 200_000_000, 2, -50), MOST_STEPS, &scaled(200.0))),
    ]
}

/// Nets of the folder `nets/`, each with the first path of its run line: a soak load of a day, a short load with timers, and two published soak nets.
pub fn measured_files(folder: &str) -> Vec<(&'static str, Case)> {
    let read = |name: &'static str| {
        let (net, samples, seed, horizon) = nets::read(&std::fs::read_to_string(format!("{folder}/{name}")).unwrap());
        let instants = (0..samples).map(|i| i as f64 * (horizon / (samples - 1) as f64)).collect();
        (name, Case { net, state: splitmix64(if seed == 0 { 1 } else { seed }), limit: MOST_STEPS, instants })
    };
    ["soak.net", "attach.net", "soak-7-32-16.net", "soak-7-4-6.net"].into_iter().map(read).collect()
}
