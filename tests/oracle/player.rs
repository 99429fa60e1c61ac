//! The second player, written from documents 01 and 02 and apart from both sides: what a net allows, and a path played on from a state between two steps.
//! Every propensity is worked anew at each step, and the peak at each moment.
use crate::binomials::exact;
use crate::nets::{Arc, Label, Move, Net};
use crate::ssa::{plog, Xoshiro256};

pub const MOST_STEPS: u64 = 1_000_000;
pub const MOST_TOKENS: i64 = 1 << 53;
pub const MOST_TIMERS: usize = 256;

// ---- a net

/// Weight 0 means 1.
pub fn amount(weight: i64) -> i64 {
    weight.max(1)
}

/// Is it 1 to 16 letters a to z, digits or hyphens?
fn label_fits(label: &Label) -> bool {
    (1..=16).contains(&label.length) && label.bytes().iter().all(|&b| b.is_ascii_lowercase() || b.is_ascii_digit() || b == b'-')
}

/// The first of 2 to 7, 17 and 18 that applies, place by place and then transition by transition.
pub fn fault(net: &Net) -> Option<u64> {
    for (i, p) in net.places.iter().enumerate() {
        if i >= 32 {
            return Some(2);
        }
        if !(0..=MOST_TOKENS).contains(&p.initial) || !(0..=MOST_TOKENS).contains(&p.capacity) {
            return Some(4);
        }
        if !label_fits(&p.label) {
            return Some(17);
        }
        if net.places[..i].iter().any(|q| q.label.bytes() == p.label.bytes()) {
            return Some(18);
        }
    }
    if net.places.is_empty() {
        return Some(2);
    }
    for (j, m) in net.moves.iter().enumerate() {
        if j >= 64 || m.arcs.len() > 16 {
            return Some(2);
        }
        if m.arcs.iter().any(|a| a.place() >= net.places.len()) {
            return Some(3);
        }
        let rate = m.rate == 0.0 || (2f64.powi(-100) <= m.rate && m.rate <= 2f64.powi(100));
        let delay = 0.0 <= m.delay && m.delay <= 2f64.powi(30);
        if !rate || !delay || m.arcs.iter().any(|a| !(0..=1_000_000).contains(&a.weight())) {
            return Some(4);
        }
        let mut taken: Vec<usize> = takes(m).map(|(p, ..)| p).collect();
        taken.sort_unstable();
        if taken.windows(2).any(|w| w[0] == w[1]) {
            return Some(5);
        }
        if m.delay > 0.0 && taken.is_empty() {
            return Some(6);
        }
        if takes(m).filter(|&(_, _, kinetic)| kinetic).map(|(_, w, _)| w).sum::<i64>() > 16 {
            return Some(7);
        }
    }
    None
}

pub fn takes(m: &Move) -> impl Iterator<Item = (usize, i64, bool)> + '_ {
    m.arcs.iter().filter_map(|a| match *a {
        Arc::Take { place, weight, kinetic } => Some((place, amount(weight), kinetic)),
        _ => None,
    })
}

fn puts(m: &Move) -> impl Iterator<Item = (usize, i64)> + '_ {
    m.arcs.iter().filter_map(|a| match *a {
        Arc::Put { place, weight } => Some((place, amount(weight))),
        _ => None,
    })
}

/// Do its takes, reads and inhibitors let it run?
fn open(counts: &[i64], m: &Move) -> bool {
    m.arcs.iter().all(|a| match *a {
        Arc::Take { place, weight, .. } | Arc::Read { place, weight } => amount(weight) <= counts[place],
        Arc::Block { place, weight } => counts[place] < amount(weight),
        Arc::Put { .. } => true,
    })
}

/// By how much it puts more into place p than it takes from it.
fn net_change(m: &Move, p: usize) -> i64 {
    let put: i64 = puts(m).filter(|&(q, _)| q == p).map(|(_, w)| w).sum();
    let taken: i64 = takes(m).filter(|&(q, ..)| q == p).map(|(_, w, _)| w).sum();
    put - taken
}

/// Do the capacities?
fn has_room(net: &Net, counts: &[i64], m: &Move) -> bool {
    (0..counts.len()).filter(|&p| net.places[p].capacity > 0).all(|p| {
        let change = net_change(m, p);
        change <= 0 || counts[p] + change <= net.places[p].capacity
    })
}

pub fn enabled(net: &Net, counts: &[i64], m: &Move) -> bool {
    open(counts, m) && has_room(net, counts, m)
}

/// The ways to choose w of m tokens: multiplied and divided factor by factor.
fn ways(m: i64, w: i64) -> f64 {
    (0..w).fold(1.0, |x, i| x * (m - i) as f64 / (i + 1) as f64)
}

fn propensity(net: &Net, counts: &[i64], m: &Move) -> f64 {
    if m.delay > 0.0 || !enabled(net, counts, m) {
        return 0.0;
    }
    let rate = if m.rate == 0.0 { 1.0 } else { m.rate };
    takes(m).filter(|&(_, _, kinetic)| kinetic).fold(rate, |x, (p, w, _)| x * ways(counts[p], w))
}

/// Is some binomial among the factors of its propensity inexact?
fn inexact(counts: &[i64], m: &Move) -> bool {
    takes(m).any(|(p, w, kinetic)| kinetic && !exact(ways(counts[p], w), counts[p], w))
}

// ---- a path between two steps

/// A running timer: when it completes, whose it is, and the weight that its start took.
#[derive(Clone, Copy, Debug)]
pub struct Timer {
    pub at: f64,
    pub who: u64,
    pub taken: u64,
}

/// What goes over when a path is halted and played on, but for the cells that are recorded: these stand in its table.
#[derive(Clone, Debug)]
pub struct State {
    pub clock: f64,
    pub counts: Vec<i64>,
    /// The first to complete first, and of equal ones the first in.
    pub timers: Vec<Timer>,
    pub generator: [u64; 4],
    pub steps: u64,
    pub limit: u64,
    pub peak: u64,
    /// The steps whose a0 adds a propensity above 0 with some binomial inexact.
    pub rounded: u64,
    pub instants: Vec<f64>,
    /// How many instants, from the first, are recorded.
    pub recorded: usize,
}

#[derive(Clone, Copy, PartialEq, Debug)]
pub enum End {
    Quiet,
    Spent,
    Reached,
    Halted,
    Refused(u64),
}

impl End {
    /// As the library tells it.
    pub fn number(self) -> u64 {
        match self {
            End::Refused(number) => number,
            End::Quiet => 100,
            End::Spent => 101,
            End::Reached => 102,
            End::Halted => 103,
        }
    }
}

/// What happened on the way, by which a comparison knows what it has shown.
#[derive(Clone, Copy, Default)]
pub struct Way {
    /// How many timers started, and for how many of them a read, an inhibitor or a capacity had kept tokens waiting.
    pub started: u64,
    pub waited: u64,
    /// Whether a capacity alone kept some transition from running at some step.
    pub held_back: bool,
    /// How often a propensity came to 0 or left it, and how often a step was rounded and the one before it was not, or the other way about.
    pub turned: u64,
    pub marked: u64,
    /// Whether some race drew r = 0, for which the source has another rule.
    pub zero: bool,
}

/// Does 12 pass a list of instants?
pub fn instants_fit(xs: &[f64]) -> bool {
    let low = [0.0].into_iter().chain(xs.iter().copied());
    (1..=1024).contains(&xs.len()) && low.zip(xs).all(|(a, &b)| a <= b) && xs.iter().all(|&x| x <= 2f64.powi(31))
}

/// Does 13 pass a step limit?
pub fn limit_fits(limit: u64) -> bool {
    (1..=MOST_STEPS).contains(&limit)
}

/// The first refusal of a path call with a table of so many cells, before it is played.
pub fn path_fault(net: &Net, instants: &[f64], limit: u64, cells: usize) -> Option<u64> {
    let tests = [(12, !instants_fit(instants)), (13, !limit_fits(limit)), (11, net.places.len() * instants.len() > cells)];
    fault(net).or(tests.into_iter().find(|t| t.1).map(|t| t.0))
}

impl State {
    /// Where a path begins. Instants up to 0 are recorded, and the start is a moment.
    pub fn beginning(net: &Net, generator: [u64; 4], instants: &[f64], limit: u64, table: &mut [f64]) -> State {
        let counts = net.places.iter().map(|p| p.initial).collect();
        let mut state = State { clock: 0.0, counts, timers: vec![], generator, steps: 0, limit, peak: 0, rounded: 0, instants: instants.to_vec(), recorded: 0 };
        state.read_clock(table);
        state.moment();
        state
    }

    fn show(&self, instant: usize, table: &mut [f64]) {
        self.counts.iter().enumerate().for_each(|(p, &c)| table[p * self.instants.len() + instant] = c as f64);
    }

    /// Every instant that the clock has reached and that is not yet recorded gets the counts.
    fn read_clock(&mut self, table: &mut [f64]) {
        while self.recorded < self.instants.len() && self.instants[self.recorded] <= self.clock {
            self.show(self.recorded, table);
            self.recorded += 1;
        }
    }

    /// At a moment, all place counts and the weights taken by each running timer: the peak is the largest of these.
    fn moment(&mut self) {
        let waiting: u64 = self.timers.iter().map(|timer| timer.taken).sum();
        self.peak = self.peak.max(self.counts.iter().sum::<i64>() as u64 + waiting);
    }

    /// How many instants, from the first, are settled at such an end.
    pub fn settled(&self, end: End) -> usize {
        if matches!(end, End::Spent | End::Halted) {
            self.recorded
        } else {
            self.instants.len()
        }
    }

    pub fn cells(&self) -> usize {
        self.counts.len() * self.instants.len()
    }
}

/// Plays on by at most so many steps. Where 14 or 15 turns it down the state is as it came, and each cell of the answer +0.
pub fn play_on(net: &Net, state: &mut State, named: u64, table: &mut [f64]) -> (End, Way) {
    let mut now = state.clone();
    match steps(net, &mut now, named, table) {
        Ok((end, way)) => {
            if end != End::Halted {
                (now.recorded..now.instants.len()).for_each(|i| now.show(i, table));
            }
            *state = now;
            (end, way)
        }
        Err(number) => {
            table[..state.cells()].fill(0.0);
            (End::Refused(number), Way::default())
        }
    }
}

fn steps(net: &Net, s: &mut State, named: u64, table: &mut [f64]) -> Result<(End, Way), u64> {
    let last = *s.instants.last().unwrap();
    let mut rng = Xoshiro256::from_state(s.generator);
    let (mut way, mut waiting, mut raced, mut marked) = (Way::default(), vec![false; net.moves.len()], vec![false; net.moves.len()], false);
    let mut done = 0;
    let end = loop {
        if s.clock >= last {
            break End::Reached;
        }
        if s.steps == s.limit {
            break End::Spent;
        }
        if done == named {
            break End::Halted;
        }
        done += 1;
        s.steps += 1;
        loop {
            let before = way.started;
            for (who, m) in net.moves.iter().enumerate() {
                if m.delay > 0.0 && enabled(net, &s.counts, m) {
                    if s.timers.len() == MOST_TIMERS {
                        return Err(15);
                    }
                    takes(m).for_each(|(p, w, _)| s.counts[p] -= w);
                    s.timers.push(Timer { at: s.clock + m.delay, who: who as u64, taken: takes(m).map(|(_, w, _)| w as u64).sum() });
                    way.started += 1;
                    way.waited += std::mem::take(&mut waiting[who]) as u64;
                    s.moment();
                }
            }
            if way.started == before {
                break;
            }
        }
        let a: Vec<f64> = net.moves.iter().map(|m| propensity(net, &s.counts, m)).collect();
        let a0 = a.iter().fold(0.0, |sum, x| sum + x);
        let inexact = a.iter().zip(&net.moves).any(|(&a, m)| a > 0.0 && inexact(&s.counts, m));
        s.rounded += inexact as u64;
        for (j, m) in net.moves.iter().enumerate() {
            waiting[j] = m.delay > 0.0 && takes(m).all(|(p, w, _)| w <= s.counts[p]);
            way.held_back |= open(&s.counts, m) && !has_room(net, &s.counts, m);
            way.turned += (raced[j] != (a[j] > 0.0)) as u64;
            raced[j] = a[j] > 0.0;
        }
        way.marked += (inexact != marked && done > 1) as u64;
        marked = inexact;
        let race = if a0 > 0.0 { s.clock + -plog(1.0 - rng.uniform()) / a0 } else { f64::INFINITY };
        // of equal ones the first: they stand in the order in which they came
        let first = (0..s.timers.len()).min_by(|&i, &k| s.timers[i].at.partial_cmp(&s.timers[k].at).unwrap());
        let completes = first.filter(|&i| s.timers[i].at <= race);
        s.clock = match completes {
            Some(i) => s.timers[i].at,
            None if a0 > 0.0 => race,
            None => break End::Quiet,
        };
        s.read_clock(table);
        if s.clock > last {
            break End::Reached;
        }
        let who = match completes {
            Some(i) => s.timers.remove(i).who as usize,
            None => {
                let r = rng.uniform() * a0;
                way.zero |= r == 0.0;
                let positive = || (0..a.len()).filter(|&j| a[j] > 0.0);
                let sum = |j: usize| a[..=j].iter().fold(0.0, |sum, x| sum + x);
                let j = positive().find(|&j| r <= sum(j)).or(positive().last()).unwrap();
                takes(&net.moves[j]).for_each(|(p, w, _)| s.counts[p] -= w);
                j
            }
        };
        puts(&net.moves[who]).for_each(|(p, w)| s.counts[p] += w);
        if s.counts.iter().any(|&c| c > MOST_TOKENS) {
            return Err(14);
        }
        s.moment();
    };
    s.generator = rng.state();
    s.timers.sort_by(|x, y| x.at.partial_cmp(&y.at).unwrap());
    Ok((end, way))
}
