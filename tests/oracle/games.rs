//! The game of document 02's order 13, fault side against recovery side. A case is answered by the library, by a second player that
//! plays every line of the plain game to its end, and by a third that searches as the order counts positions; all have to agree.
use crate::draw::Draw;
use crate::nets::{Arc, Label, Move, Net, Place};
use crate::paths::{self, block, bounded, one_of, plain, put, read, take};
use crate::player;
use crate::rattle;
use crate::report::Report;
use std::collections::BTreeMap;

const MOST_TOKENS: i64 = 1 << 53;
const MOST_TURNS: u64 = 8;
const MOST_OF_A_SIDE: usize = 8;

const FAULT: u64 = 0;
const RECOVERY: u64 = 1;

// What the library tells first, where it does not refuse.
const NO: u64 = 100;
const ALREADY: u64 = 101;
const PASS: u64 = 102;
const TRANSITION: u64 = 103;

#[derive(Clone)]
pub struct Case {
    pub net: Net,
    pub sides: Vec<u64>,
    pub place: u64,
    pub count: u64,
    pub turns: u64,
}

impl Case {
    fn shown(&self) -> String {
        let mut net = String::new();
        paths::put_net(&mut net, &self.net);
        let net: Vec<&str> = net.lines().map(|l| l.trim_start_matches('0')).collect();
        format!("sides {:?}, place {}, count {}, turns {}, net {}", self.sides, self.place, self.count, self.turns, net.join(" "))
    }
}

pub fn by_library(case: &Case) -> [u64; 3] {
    rattle::game(&rattle::Fields::of(&case.net), &case.sides, case.place, case.count, case.turns)
}

/// The refusal that applies first: the net's own, then 23, 24, 25.
fn refused(case: &Case) -> Option<u64> {
    let on = |side: u64| case.sides.iter().filter(|&&s| s == side).count();
    let one_side_each = case.sides.len() == case.net.moves.len() && on(FAULT) + on(RECOVERY) == case.sides.len();
    if let Some(number) = player::fault(&case.net) {
        Some(number)
    } else if case.net.moves.iter().any(|m| m.delay > 0.0) {
        Some(23)
    } else if !one_side_each || on(FAULT) > MOST_OF_A_SIDE || on(RECOVERY) > MOST_OF_A_SIDE || !(1..=MOST_TURNS).contains(&case.turns) {
        Some(24)
    } else if case.place >= case.net.places.len() as u64 {
        Some(25)
    } else {
        None
    }
}

// ---- the second player

/// What a side may do: fire one of its enabled transitions, or pass (none) where it has none; with the counts after it.
fn moves(case: &Case, counts: &[i64], side: u64) -> Vec<(Option<usize>, Vec<i64>)> {
    let mut all = vec![];
    for (j, m) in case.net.moves.iter().enumerate() {
        if case.sides[j] == side && player::enabled(&case.net, counts, m) {
            let mut after = counts.to_vec();
            for arc in &m.arcs {
                match *arc {
                    Arc::Take { place, weight, .. } => after[place] -= weight.max(1),
                    Arc::Put { place, weight } => after[place] += weight.max(1),
                    _ => {}
                }
            }
            if after.iter().all(|&c| c <= MOST_TOKENS) {
                all.push((Some(j), after));
            }
        }
    }
    if all.is_empty() {
        all.push((None, counts.to_vec()));
    }
    all
}

fn met(case: &Case, counts: &[i64]) -> bool {
    counts[case.place as usize] as u64 == case.count
}

/// Can the fault side force the count within so many turns, the named side to move? No move is left out for what another one gave.
fn forces(case: &Case, counts: &[i64], side: u64, turns: u64) -> bool {
    if met(case, counts) || turns == 0 {
        return met(case, counts);
    }
    let outcomes: Vec<bool> = moves(case, counts, side).iter().map(|(_, after)| forces(case, after, 1 - side, turns - 1)).collect();
    if side == FAULT {
        outcomes.contains(&true)
    } else {
        !outcomes.contains(&false)
    }
}

/// The plain game's answer, without the positions.
pub fn plain_game(case: &Case) -> [u64; 2] {
    if let Some(number) = refused(case) {
        return [number, 0];
    }
    let counts: Vec<i64> = case.net.places.iter().map(|p| p.initial).collect();
    if met(case, &counts) {
        return [ALREADY, 0];
    }
    let winning: Vec<Option<usize>> =
        moves(case, &counts, FAULT).into_iter().filter(|(_, after)| forces(case, after, RECOVERY, case.turns - 1)).map(|(who, _)| who).collect();
    match winning.iter().min() {
        None => [NO, 0],
        Some(None) => [PASS, 0],
        Some(Some(j)) => [TRANSITION, *j as u64],
    }
}

// ---- the third: a plain search, fired and taken back, which the benchmark times too

/// A transition as its tests and its change: the least and the most that a place may hold before it, and what it adds.
#[derive(Clone, Copy)]
struct Gate {
    place: usize,
    least: i64,
    most: i64,
    change: i64,
}

struct Search {
    gates: Vec<Vec<Gate>>,
    own: [Vec<usize>; 2],
    counts: Vec<i64>,
    place: usize,
    count: u64,
    positions: u64,
}

/// One gate for each place that a transition's arcs name.
fn gates(net: &Net, m: &Move) -> Vec<Gate> {
    let mut by_place = BTreeMap::new();
    for arc in &m.arcs {
        let weight = arc.weight().max(1);
        let gate = by_place.entry(arc.place()).or_insert(Gate { place: arc.place(), least: 0, most: MOST_TOKENS, change: 0 });
        match arc {
            Arc::Take { .. } => (gate.least, gate.change) = (gate.least.max(weight), gate.change - weight),
            Arc::Put { .. } => gate.change += weight,
            Arc::Read { .. } => gate.least = gate.least.max(weight),
            Arc::Block { .. } => gate.most = gate.most.min(weight - 1),
        }
    }
    for gate in by_place.values_mut().filter(|g| g.change > 0) {
        let capacity = net.places[gate.place].capacity;
        gate.most = gate.most.min(if capacity == 0 { MOST_TOKENS } else { capacity } - gate.change);
    }
    by_place.into_values().collect()
}

impl Search {
    fn enabled(&self, j: usize) -> bool {
        self.gates[j].iter().all(|g| (g.least..=g.most).contains(&self.counts[g.place]))
    }

    fn add(&mut self, j: usize, sign: i64) {
        for g in &self.gates[j] {
            self.counts[g.place] += sign * g.change;
        }
    }

    /// Counts the position that the counts are, and those tried below it; says whether the fault side forces the count, and by which
    /// move first: a transition, or none for a pass.
    fn visit(&mut self, side: u64, turns: u64) -> (bool, Option<usize>) {
        self.positions += 1;
        if self.counts[self.place] as u64 == self.count {
            return (true, None);
        }
        if turns == 0 {
            return (false, None);
        }
        let mut passes = true;
        for i in 0..self.own[side as usize].len() {
            let j = self.own[side as usize][i];
            if self.enabled(j) {
                passes = false;
                self.add(j, 1);
                let (forced, _) = self.visit(1 - side, turns - 1);
                self.add(j, -1);
                if forced == (side == FAULT) {
                    return (forced, Some(j));
                }
            }
        }
        if passes {
            return (self.visit(1 - side, turns - 1).0, None);
        }
        (side != FAULT, None)
    }
}

/// The whole answer, by search.
pub fn searched(case: &Case) -> [u64; 3] {
    if let Some(number) = refused(case) {
        return [number, 0, 0];
    }
    let own = |side: u64| (0..case.sides.len()).filter(|&j| case.sides[j] == side).collect();
    let mut search = Search {
        gates: case.net.moves.iter().map(|m| gates(&case.net, m)).collect(),
        own: [own(FAULT), own(RECOVERY)],
        counts: case.net.places.iter().map(|p| p.initial).collect(),
        place: case.place as usize,
        count: case.count,
        positions: 0,
    };
    let already = search.counts[search.place] as u64 == search.count;
    let (told, who) = match search.visit(FAULT, case.turns) {
        (false, _) => (NO, 0),
        (true, _) if already => (ALREADY, 0),
        (true, None) => (PASS, 0),
        (true, Some(j)) => (TRANSITION, j as u64),
    };
    [told, who, search.positions]
}

// ---- the cases at edges

fn net(initial: &[i64], arcs: &[&[Arc]]) -> Net {
    paths::net(initial, arcs.iter().map(|a| (1.0, 0.0, a.to_vec())).collect())
}

fn case(net: Net, sides: &[u64], place: u64, count: u64, turns: u64) -> Case {
    Case { net, sides: sides.to_vec(), place, count, turns }
}

/// The cases that order 13 names, each with its answer, worked by hand where the game is short.
pub fn edges() -> Vec<(Case, [u64; 3])> {
    let mut v = vec![];
    let mut told = |c: Case, first: u64, who: u64, positions: u64| v.push((c, [first, who, positions]));
    // one token a turn from either side: the turns, 0 and 9 and more refused; after a turn of either side
    let up = || net(&[0, 0], &[&[put(0, 1)], &[put(0, 1)]]);
    for turns in [0, 9, u64::MAX] {
        told(case(up(), &[0, 1], 0, 1, turns), 24, 0, 0);
        told(case(up(), &[0, 1], 0, 0, turns), 24, 0, 0);
    }
    for turns in 1..=8 {
        for count in 1..=9 {
            let met = count <= turns;
            told(case(up(), &[0, 1], 0, count, turns), if met { TRANSITION } else { NO }, 0, 1 + count.min(turns));
        }
        // at the start: one position, whatever the turns
        told(case(up(), &[0, 1], 0, 0, turns), ALREADY, 0, 1);
        told(case(net(&[0], &[]), &[], 0, 0, turns), ALREADY, 0, 1);
        // no transitions: passes alone
        told(case(net(&[0], &[]), &[], 0, 1, turns), NO, 0, 1 + turns);
        // a side without transitions: the other's are no choice of its own
        told(case(net(&[0], &[&[put(0, 1)]]), &[0], 0, 1, turns), TRANSITION, 0, 2);
        told(case(net(&[0], &[&[put(0, 1)]]), &[0], 0, 4, turns), if turns < 7 { NO } else { TRANSITION }, 0, 1 + turns.min(7));
        told(case(net(&[0], &[&[put(0, 1)]]), &[1], 0, 1, turns), if turns < 2 { NO } else { PASS }, 0, 1 + turns.min(2));
        // recovery puts it off by its first transition, once
        told(case(net(&[0, 1], &[&[take(1, 1)], &[put(0, 1)]]), &[1, 1], 0, 1, turns), if turns < 4 { NO } else { PASS }, 0, [2, 3, 4, 6][turns.min(4) as usize - 1]);
    }
    // the lowest winning transition, its losing predecessors tried; a later winner is not
    told(case(net(&[0, 0], &[&[put(1, 1)], &[put(0, 2)], &[put(0, 1)], &[put(0, 1)]]), &[0; 4], 0, 1, 1), TRANSITION, 2, 4);
    // recovery first in the list, and between: the list's order within a side is the transitions'
    told(case(net(&[0, 0], &[&[put(0, 1)], &[put(1, 1)], &[put(0, 1)], &[put(0, 1)]]), &[1, 0, 1, 0], 0, 1, 1), TRANSITION, 3, 3);
    // recovery has to move: no pass beside an enabled move, of either side
    told(case(net(&[2], &[&[take(0, 1)]]), &[1], 0, 1, 2), PASS, 0, 3);
    told(case(net(&[1, 0], &[&[put(1, 1), block(1, 1)], &[take(0, 1)]]), &[0, 1], 0, 0, 2), TRANSITION, 0, 3);
    told(case(net(&[1, 0], &[&[put(0, 1)], &[put(0, 5)]]), &[0, 1], 0, 6, 2), NO, 0, 3);
    // recovery's second move holds; its first alone is tried where that holds
    told(case(net(&[0, 0], &[&[put(1, 1)], &[put(0, 1)], &[put(1, 1)]]), &[0, 1, 1], 0, 1, 2), NO, 0, 4);
    told(case(net(&[0, 0], &[&[put(1, 1)], &[put(1, 1)], &[put(0, 1)]]), &[0, 1, 1], 0, 1, 2), NO, 0, 3);
    // exactly the count: past it is not it
    told(case(net(&[0], &[&[put(0, 2)]]), &[0], 0, 1, 1), NO, 0, 2);
    told(case(net(&[3], &[&[take(0, 2)]]), &[0], 0, 2, 8), NO, 0, 9);
    // a weight of 0 is one token
    told(case(net(&[1], &[&[put(0, 0)]]), &[0], 0, 2, 1), TRANSITION, 0, 2);
    told(case(net(&[1], &[&[take(0, 0)]]), &[0], 0, 0, 1), TRANSITION, 0, 2);
    // a capacity shuts a move: net change, and above it from the start; a move that adds nothing is not shut
    for (capacity, first) in [(2, NO), (3, TRANSITION), (0, TRANSITION)] {
        told(case(bounded(net(&[1], &[&[put(0, 1), put(0, 1)]]), &[capacity]), &[0], 0, 3, 1), first, 0, 2);
        told(case(bounded(net(&[4], &[&[take(0, 1), put(0, 1)]]), &[capacity]), &[0], 0, 5, 1), NO, 0, 2);
        told(case(bounded(net(&[4], &[&[take(0, 1)]]), &[capacity]), &[0], 0, 3, 1), TRANSITION, 0, 2);
    }
    told(case(bounded(net(&[1, 0], &[&[put(0, 1)], &[put(1, 1)]]), &[1]), &[0, 0], 1, 1, 1), TRANSITION, 1, 2);
    // recovery is shut and has to pass
    told(case(bounded(net(&[0, 1], &[&[put(0, 1)], &[put(1, 1)]]), &[0, 1]), &[0, 1], 0, 2, 3), TRANSITION, 0, 4);
    // reads and blocks at, below and above their weight
    for (n, reads, blocks) in [(1, NO, TRANSITION), (2, TRANSITION, NO), (3, TRANSITION, NO)] {
        told(case(net(&[n, 0], &[&[read(0, 2), put(1, 1)]]), &[0], 1, 1, 1), reads, 0, 2);
        told(case(net(&[n, 0], &[&[block(0, 2), put(1, 1)]]), &[0], 1, 1, 1), blocks, 0, 2);
    }
    // a firing past 2^53 is not enabled, of the named place or of another; to it exactly is
    let full = MOST_TOKENS;
    told(case(net(&[full - 1], &[&[put(0, 1)]]), &[0], 0, full as u64, 1), TRANSITION, 0, 2);
    told(case(net(&[full], &[&[put(0, 1)]]), &[0], 0, full as u64 + 1, 8), NO, 0, 9);
    told(case(net(&[full, 0], &[&[put(0, 1), put(1, 1)]]), &[0], 1, 1, 8), NO, 0, 9);
    told(case(net(&[full, 0], &[&[take(0, 1), put(0, 1), put(1, 1)]]), &[0], 1, 1, 8), TRANSITION, 0, 2);
    told(case(net(&[full - 1, 0], &[&[put(0, 2)], &[put(1, 1)]]), &[0, 0], 1, 1, 1), TRANSITION, 1, 2);
    told(case(bounded(net(&[full], &[&[put(0, 1)]]), &[full]), &[0], 0, 1, 2), NO, 0, 3);
    // a firing past 2^53 is recovery's only one: it passes
    told(case(net(&[0, full], &[&[put(0, 1)], &[put(1, 1)]]), &[0, 1], 0, 2, 3), TRANSITION, 0, 4);
    // a named count above 2^53 is never met
    for count in [full as u64 + 1, 1 << 63, u64::MAX] {
        told(case(up(), &[0, 1], 0, count, 3), NO, 0, 4);
        told(case(net(&[full], &[&[put(0, 1_000_000)]]), &[0], 0, count, 3), NO, 0, 4);
    }
    // sides: too short, too long, a number above 1, eight and nine on a side
    for sides in [&[][..], &[0], &[0, 1, 1], &[0, 1, 2], &[0, 2], &[2, 1], &[0, u64::MAX], &[1 << 32, 1]] {
        told(case(up(), sides, 0, 1, 1), 24, 0, 0);
    }
    told(case(net(&[0], &[]), &[0], 0, 1, 1), 24, 0, 0);
    let many = |n: usize| paths::net(&[0], vec![(1.0, 0.0, vec![put(0, 1)]); n]);
    for side in [FAULT, RECOVERY] {
        told(case(many(8), &[side; 8], 0, 9, 1), NO, 0, if side == FAULT { 9 } else { 2 });
        told(case(many(9), &[side; 9], 0, 9, 1), 24, 0, 0);
        let mut one_apart = [side; 9];
        one_apart[4] = 1 - side;
        told(case(many(9), &one_apart, 0, 9, 1), NO, 0, if side == FAULT { 9 } else { 2 });
        let mut two = [side; 16];
        two[..7].fill(1 - side);
        told(case(many(16), &two, 0, 9, 1), 24, 0, 0);
    }
    told(case(many(17), &[[0; 8].as_slice(), &[1; 9]].concat(), 0, 9, 1), 24, 0, 0);
    told(case(many(64), &[0; 64], 0, 9, 1), 24, 0, 0);
    told(case(many(65), &[0; 65], 0, 9, 1), 2, 0, 0);
    // no such place
    for place in [2, 3, 32, 1 << 32, u64::MAX] {
        told(case(up(), &[0, 1], place, 0, 1), 25, 0, 0);
        told(case(up(), &[0, 1], place, 0, 0), 24, 0, 0);
        told(case(up(), &[0], place, 0, 1), 24, 0, 0);
    }
    // a delayed transition comes before bad sides, turns and places; a delay of -0 is none; a net's own refusal comes before all
    let delayed = |delay: f64| paths::net(&[1, 0], vec![(1.0, 0.0, vec![put(1, 1)]), (1.0, delay, vec![take(0, 1), put(1, 1)])]);
    for (sides, place, turns) in [(&[0, 1][..], 0, 1), (&[0], 0, 1), (&[0, 2], 0, 1), (&[0, 1], 9, 1), (&[0, 1], 0, 0), (&[], 9, 9)] {
        for delay in [f64::from_bits(1), 1.0, 2f64.powi(30)] {
            told(case(delayed(delay), sides, place, 1, turns), 23, 0, 0);
        }
        told(case(delayed(f64::NAN), sides, place, 1, turns), 4, 0, 0);
        told(case(delayed(-1.0), sides, place, 1, turns), 4, 0, 0);
        told(case(paths::net(&[1], vec![(1.0, 1.0, vec![put(0, 1)])]), sides, place, 1, turns), 6, 0, 0);
    }
    told(case(delayed(-0.0), &[0, 1], 1, 1, 1), TRANSITION, 0, 2);
    // the games of nets/storm.net and nets/shed.net, as nets/README.md tells them
    let cells: [&[Arc]; 5] = [&[plain(0, 3), put(2, 3)], &[plain(1, 2), put(2, 2)], &[plain(3, 1), put(4, 1)], &[plain(2, 1), read(3, 1), put(5, 1)], &[plain(4, 1), put(3, 1)]];
    let storm = |initial: &[i64], arcs: &[&[Arc]]| bounded(net(initial, arcs), &[0, 0, 8]);
    let shed = || storm(&[9, 8, 0, 2, 0, 0, 0], &[&cells[..], &[&[plain(2, 3), put(6, 3)]]].concat());
    told(case(storm(&[9, 8, 0, 2, 0, 0], &cells), &[0, 0, 0, 1, 1], 2, 8, 6), NO, 0, 79);
    told(case(storm(&[9, 8, 0, 2, 0, 0], &cells), &[0, 0, 0, 1, 1], 2, 8, 8), TRANSITION, 0, 8);
    told(case(shed(), &[0, 0, 0, 1, 1, 1], 2, 8, 8), NO, 0, 247);
    // the net's own, one of each
    told(case(net(&[], &[]), &[], 0, 1, 0), 2, 0, 0);
    told(case(net(&[0; 33], &[]), &[], 0, 1, 1), 2, 0, 0);
    told(case(net(&[0], &[&[put(1, 1)]]), &[0], 0, 1, 1), 3, 0, 0);
    told(case(net(&[full + 1], &[]), &[], 0, 1, 1), 4, 0, 0);
    told(case(net(&[0], &[&[put(0, 1_000_001)]]), &[0], 0, 1, 1), 4, 0, 0);
    told(case(net(&[0], &[&[take(0, 1), plain(0, 1)]]), &[0], 0, 1, 1), 5, 0, 0);
    told(case(net(&[0], &[&[take(0, 17)]]), &[0], 0, 1, 1), 7, 0, 0);
    let mut labels = net(&[0, 0], &[]);
    labels.places[1].label = Label::new(b"A");
    told(case(labels.clone(), &[], 0, 1, 1), 17, 0, 0);
    labels.places[1].label = labels.places[0].label;
    told(case(labels, &[], 0, 1, 1), 18, 0, 0);
    v
}

// ---- cases drawn

fn drawn_arcs(draw: &mut Draw, places: usize) -> Vec<Arc> {
    let mut arcs = vec![];
    let mut taken = vec![false; places];
    for _ in 0..1 + draw.below(4) {
        let place = draw.below(places as u64) as usize;
        let weight = one_of(draw, &[0, 1, 1, 1, 1, 2, 2, 3]);
        arcs.push(match draw.below(8) {
            0..=2 if !taken[place] => {
                taken[place] = true;
                Arc::Take { place, weight, kinetic: draw.below(2) == 0 }
            }
            3 => read(place, weight),
            4 => block(place, weight + draw.below(4) as i64),
            _ => put(place, weight),
        });
    }
    arcs
}

/// A small net without delays. In one of eight the counts stand near 2^53.
fn drawn_net(draw: &mut Draw) -> Net {
    let places = 1 + draw.below(4) as usize;
    let crowded = draw.below(8) == 0;
    let place = |draw: &mut Draw, p: usize| {
        let initial = if crowded && draw.below(2) == 0 { MOST_TOKENS - draw.below(4) as i64 } else { draw.below(5) as i64 };
        let capacity = match draw.below(4) {
            0 => (initial + draw.below(5) as i64 - 1).clamp(0, MOST_TOKENS),
            _ => 0,
        };
        Place { initial, capacity, label: Label::numbered(p) }
    };
    let places: Vec<Place> = (0..places).map(|p| place(draw, p)).collect();
    let moves = (0..draw.below(7)).map(|_| Move { rate: 1.0, delay: one_of(draw, &[0.0, -0.0]), arcs: drawn_arcs(draw, places.len()) }).collect();
    Net { places, moves }
}

/// The place and count are mostly ones that some line of play brings about, so that there is something to decide.
pub fn drawn(draw: &mut Draw) -> Case {
    let net = drawn_net(draw);
    let sides = net.moves.iter().map(|_| draw.below(2)).collect();
    let turns = 1 + draw.below(if net.moves.len() <= 4 { 8 } else { 5 });
    let mut case = Case { net, sides, place: 0, count: 0, turns };
    let start: Vec<i64> = case.net.places.iter().map(|p| p.initial).collect();
    let mut counts = start.clone();
    for turn in 0..turns - draw.below(2) {
        let all = moves(&case, &counts, turn % 2);
        counts = all[draw.below(all.len() as u64) as usize].1.clone();
    }
    let changed: Vec<usize> = (0..counts.len()).filter(|&p| counts[p] != start[p]).collect();
    let place = if changed.is_empty() { draw.below(counts.len() as u64) as usize } else { one_of(draw, &changed) };
    case.place = place as u64;
    case.count = match draw.below(20) {
        0 => start[place] as u64,
        1..=2 => draw.below(8),
        3 => MOST_TOKENS as u64 - 1 + draw.below(4),
        _ if changed.is_empty() => start[place] as u64 + 1,
        _ => counts[place] as u64,
    };
    case
}

/// Refused in one or two of the ways that the entry tests.
pub fn spoiled(draw: &mut Draw) -> Case {
    let mut case = drawn(draw);
    for _ in 0..(1 + draw.below(2)) {
        match draw.below(8) {
            0 => paths::spoil(draw, &mut case.net),
            1 => paths::spoil_label(draw, &mut case.net),
            2 => case.turns = one_of(draw, &[0, 9, 10, 1 << 32, u64::MAX]),
            3 => case.place = case.net.places.len() as u64 + draw.any_length() / 2,
            4 => case.sides.push(draw.below(2)),
            5 => drop(case.sides.pop()),
            6 => case.sides.iter_mut().take(1).for_each(|s| *s = 2 + draw.below(3)),
            _ => case.net.moves.push(Move { rate: 0.0, delay: draw.unit(), arcs: vec![take(0, 1)] }),
        }
    }
    case
}

/// A game of any size, up to eight transitions on each side and eight turns: more than can be played without pruning.
fn drawn_large(draw: &mut Draw) -> Case {
    let mut case = drawn(draw);
    case.turns = MOST_TURNS - draw.below(3);
    let (faults, recoveries) = (draw.below(9), draw.below(9));
    let mut left = [faults, recoveries];
    (case.net.moves, case.sides) = (vec![], vec![]);
    while left != [0, 0] {
        let side = draw.below(2);
        if left[side as usize] > 0 {
            left[side as usize] -= 1;
            case.sides.push(side);
            case.net.moves.push(Move { rate: 1.0, delay: 0.0, arcs: drawn_arcs(draw, case.net.places.len()) });
        }
    }
    case.count = (case.net.places[case.place as usize].initial + draw.below(9) as i64 - 2).max(0) as u64;
    case
}

// ---- for the benchmark

/// Long searches: every transition but one is always enabled, and in most positions only the last move of the side settles it. The named place, 0, gets
/// a token from each move but recovery's last, so that it holds 8 after 8 turns unless that one was fired; which it can be while place 1 holds less than
/// 10. The fault side's first seven take one from place 1, recovery's first seven put one: each is a slip that gives the game to the other side.
pub fn measured() -> Vec<(&'static str, Case)> {
    let mut arcs: Vec<Vec<Arc>> = vec![];
    arcs.extend((0..7).map(|_| vec![put(0, 1), take(1, 1)]));
    arcs.push(vec![put(0, 1)]);
    arcs.extend((0..7).map(|_| vec![put(0, 1), put(1, 1)]));
    arcs.push(vec![block(1, 10)]);
    let sides = [[FAULT; 8], [RECOVERY; 8]].concat();
    let built = |initial: &[i64], arcs: &[Vec<Arc>]| {
        let moves = arcs.iter().map(|a| (1.0, 0.0, a.clone())).collect();
        case(paths::net(initial, moves), &sides, 0, 8, MOST_TURNS)
    };
    let small = built(&[0, 10], &arcs);
    // the same game among 32 places, each transition with 16 arcs
    for (j, a) in arcs.iter_mut().enumerate() {
        for i in a.len()..16 {
            let p = 2 + (7 * j + 4 * i) % 30;
            a.push([take(p, 1), put(p, 1), read(p, 1), block(p, 1000)][i % 4]);
        }
    }
    let mut initial = [50; 32];
    (initial[0], initial[1]) = (0, 10);
    let large = built(&initial, &arcs);
    vec![("2 places, 16 transitions", small), ("32 places, 16 arcs a transition", large)]
}

pub fn compare(report: &mut Report, seed: u64, count: u64) {
    let mut kinds: BTreeMap<u64, u64> = BTreeMap::new();
    let mut held = |case: &mut dyn FnMut(bool, &dyn Fn() -> String), c: &Case, told: Option<[u64; 3]>| {
        let (plain, search, ours) = (plain_game(c), searched(c), by_library(c));
        *kinds.entry(ours[0]).or_default() += 1;
        let agree = plain[..] == search[..2] && search == ours && told.is_none_or(|t| t == ours);
        case(agree, &|| format!("{ours:?}, by search {search:?}, the plain game {plain:?}, by hand {told:?}: {}", c.shown()));
    };
    report.compare("games, edges", |case| edges().iter().for_each(|(c, told)| held(case, c, Some(*told))));
    report.compare("games", |case| {
        let mut draw = Draw::new(seed);
        (0..count).for_each(|_| held(case, &drawn(&mut draw), None));
    });
    report.compare("games of up to 16 transitions", |case| {
        let mut draw = Draw::new(seed);
        for _ in 0..count {
            let c = drawn_large(&mut draw);
            let (search, ours) = (searched(&c), by_library(&c));
            case(search == ours, &|| format!("{ours:?}, by search {search:?}: {}", c.shown()));
        }
    });
    report.compare("games refused", |case| {
        let mut draw = Draw::new(seed);
        (0..count).for_each(|_| held(case, &spoiled(&mut draw), None));
    });
    report.compare("games, every kind of answer", |case| {
        for kind in [2, 3, 4, 5, 6, 7, 17, 18, 23, 24, 25, NO, ALREADY, PASS, TRANSITION] {
            case(kinds.contains_key(&kind), &|| format!("{kind} does not come up: {kinds:?}"));
        }
    });
}
