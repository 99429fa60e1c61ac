//! "A path through the index has the bits of a path without it", document 02's order 5. The second player works every propensity anew at each step; the
//! library works again what a step has touched. Both play nets that go on for thousands of steps, at small counts beside many thresholds, so that
//! transitions open and shut all the time; every number and every cell has to be equal.
use crate::draw::Draw;
use crate::ensembles;
use crate::nets::{Arc, Label, Move, Net, Place};
use crate::paths::{self, block, one_of, put, read, take, Answer, Case, CELLS};
use crate::player::End;
use crate::report::Report;

/// How many steps are compared at least.
pub const LEAST: u64 = 1_000_000;
const MOST_ARCS: usize = 16;

// ---- parts of a net

/// As a net text may write an amount: one token by 0 or by 1.
fn written(draw: &mut Draw, amount: i64) -> i64 {
    if amount == 1 {
        1 - (draw.below(4) == 0) as i64
    } else {
        amount
    }
}

fn any_place(draw: &mut Draw, places: &[Place]) -> usize {
    draw.below(places.len() as u64) as usize
}

/// Takes from so many places at most, and how many tokens they take.
fn takes_of(draw: &mut Draw, places: &[Place], many: u64) -> (Vec<Arc>, i64) {
    let (mut arcs, mut taken, mut all, mut kinetic_left) = (vec![], vec![false; places.len()], 0, 16);
    for _ in 0..many {
        let place = any_place(draw, places);
        let amount = one_of(draw, &[1, 1, 1, 1, 2, 2, 3]);
        if !taken[place] {
            let kinetic = draw.below(5) > 0 && amount <= kinetic_left;
            kinetic_left -= if kinetic { amount } else { 0 };
            taken[place] = true;
            all += amount;
            arcs.push(Arc::Take { place, weight: written(draw, amount), kinetic });
        }
    }
    (arcs, all)
}

/// As many tokens put as were taken, by so many arcs at most; two of them may be at one place.
fn puts_of(draw: &mut Draw, places: &[Place], mut left: i64, most: usize) -> Vec<Arc> {
    let mut arcs = vec![];
    while left > 0 {
        let amount = if arcs.len() + 1 == most { left } else { 1 + draw.below(left as u64) as i64 };
        left -= amount;
        arcs.push(put(any_place(draw, places), written(draw, amount)));
    }
    arcs
}

/// A read or an inhibitor on place p that opens and shuts about where the count begins, or low.
fn gate_on(draw: &mut Draw, places: &[Place], p: usize) -> Arc {
    let near = places[p].initial;
    match draw.below(8) {
        0..=1 => read(p, one_of(draw, &[0, 1, 2, 2, 3])),
        2..=3 => read(p, (near - draw.below(3) as i64).max(0)),
        4..=5 => block(p, one_of(draw, &[0, 1, 2, 2, 3])),
        _ => block(p, near + 1 + draw.below(3) as i64),
    }
}

fn gate(draw: &mut Draw, places: &[Place]) -> Arc {
    let p = any_place(draw, places);
    gate_on(draw, places, p)
}

/// Line order is free.
pub fn shuffled<T>(draw: &mut Draw, mut xs: Vec<T>) -> Vec<T> {
    for i in (1..xs.len()).rev() {
        xs.swap(i, draw.below(i as u64 + 1) as usize);
    }
    xs
}

/// Places of few tokens; some hold at most about as many as they begin with, and the first has no bound.
fn places_of(draw: &mut Draw, many: u64, most: u64, bounded: u64) -> Vec<Place> {
    let place = |p: u64, draw: &mut Draw| {
        let initial = draw.below(most + 1) as i64;
        let capacity = if p > 0 && draw.below(6) < bounded { (initial + draw.below(4) as i64).max(1) } else { 0 };
        Place { initial, capacity, label: Label::numbered(p as usize) }
    };
    (0..many).map(|p| place(p, draw)).collect()
}

fn rate(draw: &mut Draw, takes: usize) -> f64 {
    // the more it takes, the more ways there are to
    if draw.below(12) == 0 {
        0.0
    } else {
        (draw.unit() * 5.0 - 2.5 - takes as f64).exp2()
    }
}

fn delay(draw: &mut Draw) -> f64 {
    match draw.below(8) {
        0 => 2f64.powi(-8),
        1..=4 => one_of(draw, &[0.25, 0.5, 0.5, 1.0, 1.0, 1.5]),
        _ => 0.05 + draw.unit() * 2.0,
    }
}

/// One token at a time round all places: while a token and room for it are left somewhere, a net that has these goes on.
fn ring(draw: &mut Draw, places: &[Place], delayed: u64) -> Vec<Move> {
    let order = shuffled(draw, (0..places.len()).collect());
    let next = |i: usize| order[(i + 1) % order.len()];
    let moves = (0..order.len()).map(|i| {
        let delay = if draw.below(6) < delayed { delay(draw) } else { 0.0 };
        Move { rate: rate(draw, 0), delay, arcs: vec![take(order[i], 1), put(next(i), 1)] }
    });
    moves.collect()
}

// ---- the nets

/// Up to 32 places and 64 transitions of up to 16 arcs; in some a few transitions are delayed.
pub fn dense(draw: &mut Draw) -> Net {
    let many = if draw.below(2) == 0 { 32 } else { 3 + draw.below(30) };
    let places = places_of(draw, many, 5, 2);
    let moves = if draw.below(2) == 0 { 64 } else { many + draw.below(65 - many) };
    let delayed = if draw.below(3) == 0 { 16 } else { 0 };
    let mut all = ring(draw, &places, 0);
    // in some the ring is broken
    all.truncate(if draw.below(3) == 0 { all.len() / 2 } else { all.len() });
    while (all.len() as u64) < moves {
        let takes = 1 + draw.below(5);
        let (mut arcs, taken) = takes_of(draw, &places, takes);
        arcs.extend(puts_of(draw, &places, taken, 6));
        for _ in 0..one_of(draw, &[0, 1, 2, 3, 4, 6, 16]).min(MOST_ARCS - arcs.len()) {
            arcs.push(gate(draw, &places));
        }
        let delay = if draw.below(64) < delayed { delay(draw) } else { 0.0 };
        all.push(Move { rate: rate(draw, takes as usize), delay, arcs: shuffled(draw, arcs) });
    }
    Net { places, moves: shuffled(draw, all) }
}

/// One take or two, one put of as many tokens, and seldom a read or an inhibitor.
pub fn sparse(draw: &mut Draw) -> Net {
    let many = if draw.below(2) == 0 { 32 } else { 8 + draw.below(25) };
    let bounded = draw.below(4);
    let places = places_of(draw, many, 6, bounded);
    let gated = draw.below(4) == 0;
    let mut all = ring(draw, &places, 0);
    while all.len() < 64 {
        let takes = 1 + draw.below(2);
        let (mut arcs, taken) = takes_of(draw, &places, takes);
        arcs.push(put(any_place(draw, &places), written(draw, taken)));
        if gated && draw.below(6) == 0 {
            arcs.push(gate(draw, &places));
        }
        all.push(Move { rate: rate(draw, takes as usize), delay: 0.0, arcs });
    }
    Net { places, moves: shuffled(draw, all) }
}

/// Many transitions are delayed. Their starts wait for capacities, and for reads and inhibitors on places that timers change.
pub fn timed(draw: &mut Draw) -> Net {
    let many = 3 + draw.below(18);
    let places = places_of(draw, many, 8, 3);
    let moves = (many + 2 + draw.below(2 * many)).min(64);
    let (mut all, mut emptied) = (ring(draw, &places, 1), vec![]);
    while (all.len() as u64) < moves {
        let delay = if draw.below(4) > 0 { delay(draw) } else { 0.0 };
        let takes = 1 + draw.below(3);
        let (mut arcs, mut taken) = takes_of(draw, &places, takes);
        // some start only once another has taken most of what came
        if delay > 0.0 && !emptied.is_empty() && draw.below(2) == 0 {
            let p = one_of(draw, &emptied);
            if arcs.iter().all(|a| a.place() != p) {
                arcs.extend([take(p, 1), block(p, 2 + draw.below(3) as i64)]);
                taken += 1;
            }
        }
        arcs.extend(puts_of(draw, &places, taken, 3));
        // one that nothing holds back takes all that comes; half of the gates are where a start takes, so that it opens and shuts others
        for _ in 0..draw.below(3) + (delay > 0.0) as u64 {
            let p = if emptied.is_empty() || draw.below(2) == 0 { any_place(draw, &places) } else { one_of(draw, &emptied) };
            arcs.push(gate_on(draw, &places, p));
        }
        if delay > 0.0 {
            emptied.extend(arcs.iter().filter(|a| a.kind() < 2).map(|a| a.place()));
        }
        all.push(Move { rate: rate(draw, takes as usize), delay, arcs: shuffled(draw, arcs) });
    }
    Net { places, moves: shuffled(draw, all) }
}

/// Counts about where a binomial is first inexact, so that the marks of rounded propensities come and go: tokens are moved one at a time and by as many as
/// the binomial takes, past gates that open and shut as they move; in some a timer starts where a count is met, and holds as many for a while.
pub fn rounding(draw: &mut Draw) -> Net {
    const EDGES: [(i64, i64); 8] = [(79, 16), (124, 11), (134, 10), (180, 9), (281, 8), (496, 7), (1141, 6), (134_217_729, 2)];
    let of: Vec<(i64, i64)> = (0..2 + draw.below(5)).map(|_| one_of(draw, &EDGES)).collect();
    let place = |p: usize, draw: &mut Draw| {
        let initial = of[p].0 + draw.below(9) as i64 - 4;
        Place { initial, capacity: if draw.below(6) == 0 { initial + of[p].1 } else { 0 }, label: Label::numbered(p) }
    };
    let places: Vec<Place> = (0..of.len()).map(|p| place(p, draw)).collect();
    let mut moves = vec![];
    for (p, &Place { initial, .. }) in places.iter().enumerate() {
        let weight = of[p].1;
        let ways = (0..weight).fold(1.0, |x, i| x * (initial - i) as f64 / (i + 1) as f64);
        let mut by_many = vec![take(p, weight), put(any_place(draw, &places), weight)];
        for _ in 0..draw.below(3) {
            let q = any_place(draw, &places);
            let near = places[q].initial + draw.below(5) as i64 - 2;
            by_many.push(if draw.below(2) == 0 { read(q, near) } else { block(q, near) });
        }
        let mut add = |rate: f64, delay: f64, arcs: Vec<Arc>| moves.push(Move { rate, delay, arcs });
        add(draw.unit().max(0.125) / ways, 0.0, shuffled(draw, by_many));
        add(draw.unit().max(0.125) / initial as f64, 0.0, vec![take(p, 1), put((p + 1) % places.len(), 1)]);
        if draw.below(4) == 0 {
            add(0.0, delay(draw), vec![take(p, weight), read(p, initial + draw.below(3) as i64), put(any_place(draw, &places), weight)]);
        }
    }
    Net { places, moves: shuffled(draw, moves) }
}

// ---- the paths

/// How many steps are played to see how long a step takes.
const TRIED: u64 = 200;

/// An end of the run after about so many steps.
fn horizon(net: &Net, state: [u64; 4], steps: u64) -> f64 {
    let tried = paths::play(&Case { net: net.clone(), state, limit: TRIED, instants: vec![2f64.powi(30)] });
    let end = tried.clock * steps as f64 / tried.steps.max(1) as f64;
    if tried.end == End::Spent && end > 0.0 {
        end
    } else {
        1.0
    }
}

/// A case of up to so many steps, by the pace at which its path begins.
pub fn drawn(draw: &mut Draw, net: Net, most: u64) -> Case {
    let state = [draw.word(), draw.word(), draw.word(), draw.word()];
    let steps = most / 6 + draw.below(most);
    let end = horizon(&net, state, steps);
    let samples = (CELLS / net.places.len()).min(64);
    Case { net, state, limit: 3 * steps, instants: (0..samples).map(|i| i as f64 * (end / (samples - 1) as f64)).collect() }
}

/// What the paths of one kind of nets were.
#[derive(Default)]
struct Seen {
    paths: u64,
    steps: u64,
    /// Of these paths: of a thousand steps or more, with timers, where a capacity alone kept a transition from running at some step, answered by the Rust.
    long: u64,
    timers: u64,
    held_back: u64,
    source: u64,
    /// Of their steps and starts: how often a propensity came to 0 or left it, how many starts had waited for a gate, how often rounded steps began or ended.
    turned: u64,
    waited: u64,
    marked: u64,
}

impl Seen {
    fn add(&mut self, answer: &Answer, source: bool) {
        let way = answer.way;
        self.paths += 1;
        self.steps += answer.steps;
        self.long += (answer.steps >= 1000) as u64;
        self.timers += (way.started > 0) as u64;
        self.held_back += way.held_back as u64;
        self.source += source as u64;
        self.turned += way.turned;
        self.waited += way.waited;
        self.marked += way.marked;
    }
}

/// Paths of nets of one kind, each of up to so many steps, until they have so many together; how many those are.
fn played(report: &mut Report, name: &str, draw: &mut Draw, most: u64, steps: u64, net: impl Fn(&mut Draw) -> Net, enough: impl Fn(&Seen) -> bool) -> u64 {
    let mut seen = Seen::default();
    report.compare(&format!("paths of {name} nets, propensities kept and worked anew"), |case| {
        while seen.steps < steps {
            let net = net(draw);
            let c = drawn(draw, net, most);
            let answer = paths::play(&c);
            let source = paths::source_agrees(&c, &answer);
            if let Some(agrees) = source {
                case(agrees, &|| format!("{}the source differs from the rules as worked here", cut(&answer.line(&c))));
            }
            let ours = paths::by_library(&c);
            case(ours == answer.line(&c), &|| format!("{}harness {}", cut(&ours), cut(&answer.line(&c))));
            seen.add(&answer, source.is_some());
        }
        // nets that end soon, or whose gates stand still, would show little
        case(3 * seen.long > seen.paths && 3 * seen.source > seen.paths && enough(&seen), &|| "too few of some kind".into());
    });
    let Seen { paths, steps, long, timers, held_back, source, turned, waited, marked } = seen;
    println!("  {paths} paths, {long} of a thousand steps or more, {steps} steps; timers ran in {timers}, a capacity held back in {held_back}, the Rust answers {source}");
    println!("  a propensity came to 0 or left it {turned} times, {waited} starts had waited for a gate, rounded steps began or ended {marked} times");
    steps
}

/// The front of a line: what is told, and some cells.
fn cut(line: &str) -> String {
    line.chars().take(400).chain(['\n']).collect()
}

pub fn compare(report: &mut Report, seed: u64, steps: u64) {
    let draw = &mut Draw::new(seed);
    let shares = [
        played(report, "dense", draw, 6_000, steps * 4 / 10, dense, |s| 2 * s.held_back > s.paths && 10 * s.timers > s.paths && s.turned > s.steps && 2 * s.waited > s.paths),
        played(report, "sparse", draw, 6_000, steps * 2 / 10, sparse, |s| 2 * s.held_back > s.paths && s.turned > s.steps),
        played(report, "timed", draw, 6_000, steps * 3 / 10, timed, |s| 2 * s.held_back > s.paths && 10 * s.timers > 9 * s.paths && s.waited > s.steps / 100),
        played(report, "rounding", draw, 3_000, steps / 10, rounding, |s| s.marked > s.steps / 100 && s.turned > s.steps / 100),
    ];
    let all: u64 = shares.iter().sum();
    report.compare("steps of these paths, a million at least", |case| case(all >= LEAST, &|| format!("only {all} steps")));
    report.compare("ensembles of dense, sparse and timed nets", |case| {
        for k in 0..steps / 25_000 {
            let net = one_of(draw, &[dense, sparse, timed])(draw);
            let (seed, realizations) = (draw.any_length(), 2 + draw.below(3));
            let horizon = horizon(&net, draw.state(), 300);
            let c = ensembles::Case { net, samples: 2 + draw.below(63), realizations, seed, horizon };
            let answer = ensembles::play(&c);
            if let Some(agrees) = ensembles::source_agrees(&c, &answer) {
                case(agrees, &|| format!("case {k}: the source differs from the rules as worked here"));
            }
            case(ensembles::library_agrees(&c, &answer), &|| format!("case {k}: {:?}", answer.outcome));
        }
    });
}
