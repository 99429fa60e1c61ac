//! Subscribers neither made nor lost, document 02's order 7. A case is answered by the library and by a second working, written from the order's words; nets
//! that balance are made to, then broken at one transition or at two, and those without delays are played, their weight held at every instant.
use crate::draw::Draw;
use crate::nets::{Arc, Label, Move, Net, Place};
use crate::paths::{self, block, one_of, plain, put, read, take};
use crate::player;
use crate::rattle;
use crate::report::Report;
use std::collections::BTreeMap;

const MOST_WEIGHT: u64 = 1_000;
const MOST_AMOUNT: i64 = 1_000_000;
const MOST_ARCS: usize = 16;

// What the library tells first, where it does not refuse.
const BALANCED: u64 = 100;
const UNBALANCED: u64 = 101;

#[derive(Clone)]
struct Case {
    net: Net,
    weights: Vec<u64>,
}

impl Case {
    fn shown(&self) -> String {
        let mut net = String::new();
        paths::put_net(&mut net, &self.net);
        let net: Vec<&str> = net.lines().map(|l| l.trim_start_matches('0')).collect();
        format!("weights {:?}, net {}", self.weights, net.join(" "))
    }
}

fn by_library(case: &Case) -> [u64; 2] {
    rattle::balance(&rattle::Fields::of(&case.net), &case.weights)
}

// ---- the second working

/// By how much a transition puts more weight than it takes.
fn surplus(m: &Move, weights: &[u64]) -> i128 {
    let weighed = |place: usize, amount: i64| i128::from(weights[place]) * i128::from(amount.max(1));
    m.arcs
        .iter()
        .map(|arc| match *arc {
            Arc::Take { place, weight, .. } => -weighed(place, weight),
            Arc::Put { place, weight } => weighed(place, weight),
            Arc::Read { .. } | Arc::Block { .. } => 0,
        })
        .sum()
}

/// The net's own refusal, 3 for another length than the place count, 4 for a weight above 1,000; else the lowest transition with a surplus or a lack.
fn worked(case: &Case) -> [u64; 2] {
    if let Some(number) = player::fault(&case.net) {
        [number, 0]
    } else if case.weights.len() != case.net.places.len() {
        [3, 0]
    } else if case.weights.iter().any(|&w| w > MOST_WEIGHT) {
        [4, 0]
    } else {
        match case.net.moves.iter().position(|m| surplus(m, &case.weights) != 0) {
            None => [BALANCED, 0],
            Some(j) => [UNBALANCED, j as u64],
        }
    }
}

// ---- the cases at edges

fn net(places: usize, arcs: &[&[Arc]]) -> Net {
    paths::net(&vec![1; places], arcs.iter().map(|a| (1.0, 0.0, a.to_vec())).collect())
}

/// Cases with their answers, by hand.
fn edges() -> Vec<(Case, [u64; 2])> {
    let mut v = vec![];
    let mut told = |net: Net, weights: &[u64], first: u64, who: u64| v.push((Case { net, weights: weights.to_vec() }, [first, who]));
    let one = |arcs: &[Arc]| net(3, &[arcs]);
    // no transitions: balanced, by every list that fits
    for places in [1, 2, 31, 32] {
        told(net(places, &[]), &vec![0; places], BALANCED, 0);
        told(net(places, &[]), &vec![MOST_WEIGHT; places], BALANCED, 0);
    }
    // a transition without arcs moves nothing, nor does one at places that weigh nothing
    told(one(&[]), &[5, 6, 7], BALANCED, 0);
    told(one(&[take(0, 3), put(1, 2), put(2, 1)]), &[0, 0, 0], BALANCED, 0);
    told(one(&[put(0, 3)]), &[0, 1, 1], BALANCED, 0);
    told(one(&[put(0, 3)]), &[1, 1, 1], UNBALANCED, 0);
    told(one(&[take(0, 3)]), &[1, 1, 1], UNBALANCED, 0);
    // the lengths: none, one less, one more, and a net of 32 places beside 31, 32 and 33 weights
    for weights in [&[][..], &[1], &[1, 1], &[1, 1, 1, 1], &[1; 33], &[1; 64], &[1; 1000]] {
        told(one(&[take(0, 1), put(1, 1)]), weights, 3, 0);
    }
    for (n, first) in [(0, 3), (1, 3), (31, 3), (32, BALANCED), (33, 3), (34, 3)] {
        told(net(32, &[&[take(0, 1), put(31, 1)]]), &vec![1; n], first, 0);
    }
    // 1,000 is a weight, 1,001 and more is none, wherever it stands and whatever is moved there
    for p in 0..3 {
        for (w, first) in [(999, BALANCED), (1_000, BALANCED), (1_001, 4), (1 << 32, 4), (1 << 63, 4), (u64::MAX, 4)] {
            let mut weights = [7; 3];
            weights[p] = w;
            told(one(&[take(p, 2), put(p, 2)]), &weights, first, 0);
            told(one(&[]), &weights, first, 0);
            told(net(3, &[]), &weights, first, 0);
        }
    }
    // 3 comes before 4, and both before what is unbalanced
    told(one(&[put(0, 1)]), &[1_001, 1], 3, 0);
    told(one(&[put(0, 1)]), &[u64::MAX; 4], 3, 0);
    told(one(&[put(0, 1)]), &[1, 1, 1_001], 4, 0);
    told(one(&[put(0, 1)]), &[1, 1], 3, 0);
    // each amount as often as its place weighs
    told(one(&[take(0, 3), put(1, 1), put(2, 1)]), &[2, 1, 5], BALANCED, 0);
    told(one(&[take(0, 3), put(1, 1), put(2, 1)]), &[2, 1, 4], UNBALANCED, 0);
    told(one(&[take(0, 2), put(1, 3)]), &[3, 2, 0], BALANCED, 0);
    told(one(&[take(0, 2), put(1, 3)]), &[2, 3, 0], UNBALANCED, 0);
    // a weight of 0 is one token, taken or put
    told(one(&[take(0, 0), put(1, 1)]), &[1, 1, 0], BALANCED, 0);
    told(one(&[take(0, 1), put(1, 0)]), &[1, 1, 0], BALANCED, 0);
    told(one(&[plain(0, 0), put(1, 0)]), &[4, 4, 0], BALANCED, 0);
    told(one(&[take(0, 2), put(1, 0), put(2, 0)]), &[1, 1, 1], BALANCED, 0);
    told(one(&[take(0, 0)]), &[1, 1, 1], UNBALANCED, 0);
    told(one(&[put(0, 0)]), &[1, 1, 1], UNBALANCED, 0);
    // kinetic or not, a take takes
    told(one(&[plain(0, 3), put(1, 3)]), &[1, 1, 0], BALANCED, 0);
    told(one(&[take(0, 1), plain(1, 2), put(2, 3)]), &[1, 1, 1], BALANCED, 0);
    told(one(&[take(0, 1), plain(1, 2), put(2, 1)]), &[1, 1, 1], UNBALANCED, 0);
    // reads and blocks count nothing, with a take, with a put, alone, and at the same place
    for idle in [read(1, 5), block(1, 5), read(0, 1), block(2, 9)] {
        told(one(&[idle]), &[1, 2, 3], BALANCED, 0);
        told(one(&[take(0, 3), idle, put(2, 1)]), &[1, 2, 3], BALANCED, 0);
        told(one(&[idle, take(0, 3), put(2, 2)]), &[1, 2, 3], UNBALANCED, 0);
        told(one(&[take(0, 3), put(2, 2), idle]), &[2, 2, 3], BALANCED, 0);
    }
    // a place twice among the puts counts twice
    told(one(&[take(0, 2), put(1, 1), put(1, 1)]), &[1, 1, 1], BALANCED, 0);
    told(one(&[take(0, 2), put(1, 1), put(2, 4), put(1, 1)]), &[1, 1, 0], BALANCED, 0);
    told(one(&[take(0, 1), put(1, 1), put(1, 1)]), &[1, 1, 1], UNBALANCED, 0);
    // a place taken from and put into
    told(one(&[take(0, 1), put(0, 1)]), &[9, 9, 9], BALANCED, 0);
    told(one(&[take(0, 1), put(0, 2)]), &[9, 9, 9], UNBALANCED, 0);
    // the lowest of several, and the last alone of 64
    let even: &[Arc] = &[take(0, 1), put(1, 1)];
    told(net(3, &[even, &[put(0, 1)], even, &[take(0, 1)]]), &[1, 1, 1], UNBALANCED, 1);
    told(net(3, &[even, &[take(2, 1)], even, &[put(0, 1)]]), &[1, 1, 1], UNBALANCED, 1);
    told(net(3, &[&[put(2, 1)], even]), &[1, 1, 0], BALANCED, 0);
    let more: &[Arc] = &[take(0, 1), put(1, 2)];
    told(net(3, &[even; 64]), &[1_000, 1_000, 1_000], BALANCED, 0);
    for j in [0, 1, 31, 62, 63] {
        let mut all = [even; 64];
        all[j] = more;
        told(net(3, &all), &[1_000, 1_000, 1_000], UNBALANCED, j as u64);
    }
    // by the most that can be weighed: sixteen arcs of 1,000,000 tokens at places of 1,000; a delay does not matter
    let heavy = |takes: usize, last: i64| {
        let mut arcs: Vec<Arc> = (0..takes).map(|p| plain(p, MOST_AMOUNT)).collect();
        arcs.extend((takes..15).map(|p| put(p, MOST_AMOUNT)));
        arcs.push(put(15, last));
        arcs
    };
    let heaviest = [MOST_WEIGHT; 16];
    told(net(16, &[&heavy(8, MOST_AMOUNT)]), &heaviest, BALANCED, 0);
    told(net(16, &[&heavy(8, MOST_AMOUNT - 1)]), &heaviest, UNBALANCED, 0);
    told(net(16, &[&heavy(0, MOST_AMOUNT)]), &heaviest, UNBALANCED, 0);
    told(net(16, &[&heavy(15, MOST_AMOUNT)]), &heaviest, UNBALANCED, 0);
    told(paths::net(&[1, 0], vec![(1.0, 1.0, vec![take(0, 1), put(1, 1)])]), &[1, 1], BALANCED, 0);
    told(paths::net(&[1, 0], vec![(1.0, 1.0, vec![take(0, 1), put(1, 1)])]), &[1, 2], UNBALANCED, 0);
    // the net's own refusals first, whatever the weights are
    for weights in [&[][..], &[1], &[1, 1], &[1_001, 1], &[u64::MAX; 33]] {
        told(net(0, &[]), weights, 2, 0);
        told(net(33, &[]), weights, 2, 0);
        told(net(2, &[even; 65]), weights, 2, 0);
        told(net(2, &[&[put(0, 1); 17]]), weights, 2, 0);
        told(net(2, &[&[put(2, 1)]]), weights, 3, 0);
        told(paths::net(&[0, (1 << 53) + 1], vec![]), weights, 4, 0);
        told(net(2, &[&[put(0, MOST_AMOUNT + 1)]]), weights, 4, 0);
        told(paths::net(&[0, 0], vec![(f64::NAN, 0.0, vec![])]), weights, 4, 0);
        told(net(2, &[&[take(0, 1), plain(0, 1)]]), weights, 5, 0);
        told(paths::net(&[0, 0], vec![(1.0, 1.0, vec![put(0, 1)])]), weights, 6, 0);
        told(net(2, &[&[take(0, 17)]]), weights, 7, 0);
        let mut labels = net(2, &[&[put(0, 1)]]);
        labels.places[1].label = Label::new(b"A");
        told(labels.clone(), weights, 17, 0);
        labels.places[1].label = labels.places[0].label;
        told(labels, weights, 18, 0);
    }
    v
}

// ---- nets that balance

/// Weights of which many are equal, many are 0, and one is 1 in most lists.
fn drawn_weights(draw: &mut Draw, places: usize) -> Vec<u64> {
    let few = [draw.below(MOST_WEIGHT + 1), 1 + draw.below(9), one_of(draw, &[0, 1, 2, 999, MOST_WEIGHT])];
    let mut weights: Vec<u64> = (0..places)
        .map(|_| match draw.below(8) {
            0 => 0,
            1..=2 => 1,
            3..=6 => one_of(draw, &few),
            _ => draw.below(MOST_WEIGHT + 1),
        })
        .collect();
    if draw.below(4) > 0 {
        let p = draw.below(places as u64) as usize;
        weights[p] = 1;
    }
    weights
}

/// As a net text may write an amount: one token by 0 or by 1.
fn written(draw: &mut Draw, amount: i64) -> i64 {
    if amount == 1 {
        draw.below(2) as i64
    } else {
        amount
    }
}

/// Puts that weigh what is left to put: at places drawn, then the rest at a place of weight 1; none where that takes more arcs than there is room for.
fn puts_of(draw: &mut Draw, weights: &[u64], mut left: u64, room: usize) -> Option<Vec<Arc>> {
    let mut arcs = vec![];
    for _ in 0..draw.below(room as u64 + 1) {
        let place = draw.below(weights.len() as u64) as usize;
        let most = left.checked_div(weights[place]).unwrap_or(9).min(MOST_AMOUNT as u64);
        if most > 0 {
            let amount = if draw.below(2) == 0 { most } else { 1 + draw.below(most) };
            left -= amount * weights[place];
            arcs.push(put(place, written(draw, amount as i64)));
        }
    }
    while left > 0 && arcs.len() < room {
        let place = weights.iter().position(|&w| w == 1)?;
        let amount = left.min(MOST_AMOUNT as u64);
        left -= amount;
        arcs.push(put(place, written(draw, amount as i64)));
    }
    (left == 0).then_some(arcs)
}

/// Arcs by which a transition puts as much weight as it takes.
fn even_arcs(draw: &mut Draw, weights: &[u64]) -> Vec<Arc> {
    let places = weights.len() as u64;
    let (mut arcs, mut taken, mut kinetic_left) = (vec![], vec![false; weights.len()], 16);
    for _ in 0..draw.below(6) {
        let place = draw.below(places) as usize;
        if !taken[place] {
            taken[place] = true;
            let amount = match draw.below(8) {
                0 => 1 + draw.below(MOST_AMOUNT as u64) as i64,
                1 => MOST_AMOUNT,
                _ => 1 + draw.below(4) as i64,
            };
            let kinetic = amount <= kinetic_left && draw.below(2) == 0;
            kinetic_left -= if kinetic { amount } else { 0 };
            arcs.push(Arc::Take { place, weight: written(draw, amount), kinetic });
        }
    }
    let weight = -surplus(&Move { rate: 1.0, delay: 0.0, arcs: arcs.clone() }, weights) as u64;
    let puts = puts_of(draw, weights, weight, MOST_ARCS - arcs.len() - 2).unwrap_or_else(|| {
        // each at a place that weighs the same, its own if there is no other
        let same = |place: usize, draw: &mut Draw| {
            let alike: Vec<usize> = (0..weights.len()).filter(|&q| weights[q] == weights[place]).collect();
            one_of(draw, &alike)
        };
        arcs.iter().map(|a| put(same(a.place(), draw), a.weight())).collect()
    });
    arcs.extend(puts);
    for _ in 0..draw.below(3) {
        let (place, weight) = (draw.below(places) as usize, draw.below(50) as i64);
        arcs.push(if draw.below(2) == 0 { read(place, weight) } else { block(place, weight) });
    }
    // line order is free
    for i in (1..arcs.len()).rev() {
        arcs.swap(i, draw.below(i as u64 + 1) as usize);
    }
    arcs
}

/// A net that its weights balance. Without delays where it is to be played.
fn balanced(draw: &mut Draw, delays: bool) -> Case {
    let (places, moves) = match draw.below(8) {
        0 => (32, 64),
        1 => (1 + draw.below(32), draw.below(65)),
        _ => (1 + draw.below(6), draw.below(8)),
    };
    let weights = drawn_weights(draw, places as usize);
    let places = (0..places as usize)
        .map(|p| Place {
            initial: if draw.below(8) == 0 { draw.below(1 << 53) } else { draw.below(50) } as i64,
            capacity: if draw.below(4) == 0 { 1 + draw.below(99) as i64 } else { 0 },
            label: if draw.below(2) == 0 { Label::numbered(p) } else { paths::drawn_label(draw, p) },
        })
        .collect();
    let moves = (0..moves)
        .map(|_| {
            let arcs = even_arcs(draw, &weights);
            let delayed = delays && arcs.iter().any(|a| a.kind() < 2) && draw.below(3) == 0;
            Move { rate: one_of(draw, &[0.0, 1.0, 0.5, 3.0]), delay: if delayed { 0.5 } else { 0.0 }, arcs }
        })
        .collect();
    Case { net: Net { places, moves }, weights }
}

/// The net of one.
pub fn drawn_net(draw: &mut Draw) -> Net {
    balanced(draw, true).net
}

/// One arc of a transition altered so that it weighs otherwise; none where no arc of it can be.
fn broken(draw: &mut Draw, m: &Move, weights: &[u64]) -> Option<Move> {
    for _ in 0..20 {
        let mut other = m.clone();
        let at = draw.below(m.arcs.len() as u64 + 1) as usize;
        let place = draw.below(weights.len() as u64) as usize;
        match other.arcs.get_mut(at) {
            None if m.arcs.len() < MOST_ARCS => other.arcs.push(put(place, draw.below(3) as i64)),
            None => {}
            Some(arc) => match (draw.below(3), *arc) {
                (0, Arc::Put { place, weight } | Arc::Take { place, weight, .. }) => *arc = one_of(draw, &[read(place, weight), block(place, weight)]),
                (1, Arc::Put { place, weight }) => *arc = put(place, if weight < 2 { 2 } else { weight - 1 }),
                (1, Arc::Take { place, weight, .. }) => *arc = plain(place, if weight < 2 { 2 } else { weight - 1 }),
                (_, Arc::Put { weight, .. }) => *arc = put(place, weight),
                (_, Arc::Read { place, weight } | Arc::Block { place, weight }) => *arc = put(place, weight),
                _ => {}
            },
        }
        let takes = other.arcs.iter().any(|a| a.kind() < 2);
        if surplus(&other, weights) != 0 && (takes || other.delay == 0.0) {
            return Some(other);
        }
    }
    None
}

/// The same net with up to two transitions broken, and the lowest of them.
fn broken_net(draw: &mut Draw, case: &mut Case) -> Option<usize> {
    let moves = case.net.moves.len() as u64;
    let mut lowest: Option<usize> = None;
    for _ in 0..1 + draw.below(2) {
        if moves > 0 {
            let j = draw.below(moves) as usize;
            if let Some(m) = broken(draw, &case.net.moves[j], &case.weights) {
                case.net.moves[j] = m;
                lowest = Some(lowest.map_or(j, |i| i.min(j)));
            }
        }
    }
    lowest
}

/// Refused in one or two of the ways that the entry tests.
fn spoiled(draw: &mut Draw) -> Case {
    let mut case = balanced(draw, true);
    for _ in 0..1 + draw.below(2) {
        match draw.below(7) {
            0 => paths::spoil(draw, &mut case.net),
            1 => paths::spoil_label(draw, &mut case.net),
            2 => drop(case.weights.pop()),
            3 => case.weights.push(draw.below(1 << 11)),
            4 => case.weights.clear(),
            _ if case.weights.is_empty() => {}
            _ => {
                let p = draw.below(case.weights.len() as u64) as usize;
                case.weights[p] = MOST_WEIGHT + one_of(draw, &[0, 1, 1, 2, 1 << 20, u64::MAX - MOST_WEIGHT]);
            }
        }
    }
    case
}

// ---- a balanced net, played

const STEPS: u64 = 300;

/// What the counts weigh at each instant shown, less what the first counts do; none where the path is refused.
fn gains(case: &Case, state: [u64; 4]) -> Option<Vec<i128>> {
    let instants: Vec<f64> = (0..9).map(|i| f64::from(i) / 4.0).collect();
    let mut table = vec![0.0; 32 * instants.len()];
    let [end, ..] = rattle::path(&rattle::Fields::of(&case.net), &mut state.clone(), &instants, STEPS, &mut table);
    let weigh = |count: &dyn Fn(usize) -> i64| (0..case.weights.len()).map(|p| i128::from(case.weights[p]) * i128::from(count(p))).sum::<i128>();
    let first = weigh(&|p| case.net.places[p].initial);
    let shown = |i: usize| weigh(&|p| table[p * instants.len() + i] as i64);
    (end >= 100).then(|| (0..instants.len()).map(|i| shown(i) - first).collect())
}

pub fn compare(report: &mut Report, seed: u64, count: u64) {
    let mut kinds: BTreeMap<u64, u64> = BTreeMap::new();
    let mut held = |case: &mut dyn FnMut(bool, &dyn Fn() -> String), c: &Case, told: Option<[u64; 2]>| {
        let (second, ours) = (worked(c), by_library(c));
        *kinds.entry(ours[0]).or_default() += 1;
        case(second == ours && told.is_none_or(|t| t == ours), &|| format!("{ours:?}, worked {second:?}, told {told:?}: {}", c.shown()));
    };
    report.compare("balances, edges", |case| edges().iter().for_each(|(c, told)| held(case, c, Some(*told))));
    report.compare("balances of nets made to balance", |case| {
        let mut draw = Draw::new(seed);
        (0..count).for_each(|_| held(case, &balanced(&mut draw, true), Some([BALANCED, 0])));
    });
    report.compare("balances of nets broken at one transition or at two", |case| {
        let mut draw = Draw::new(seed + 1);
        for _ in 0..count {
            let mut c = balanced(&mut draw, true);
            match broken_net(&mut draw, &mut c) {
                // what is broken twice in one place may be whole again
                Some(j) if surplus(&c.net.moves[j], &c.weights) != 0 => held(case, &c, Some([UNBALANCED, j as u64])),
                _ => held(case, &c, None),
            }
        }
    });
    report.compare("balances of any nets and weights", |case| {
        let mut draw = Draw::new(seed + 2);
        for _ in 0..count {
            let net = paths::drawn_net(&mut draw);
            let weights = drawn_weights(&mut draw, net.places.len());
            held(case, &Case { net, weights }, None);
        }
    });
    report.compare("balances refused", |case| {
        let mut draw = Draw::new(seed + 3);
        (0..count).for_each(|_| held(case, &spoiled(&mut draw), None));
    });
    report.compare("balances, every kind of answer", |case| {
        for kind in [2, 3, 4, 5, 6, 7, 17, 18, BALANCED, UNBALANCED] {
            case(kinds.contains_key(&kind), &|| format!("{kind} does not come up: {kinds:?}"));
        }
    });
    report.compare("the weight of balanced nets, at every instant of a path", |case| {
        let mut draw = Draw::new(seed + 4);
        for _ in 0..count {
            let c = balanced(&mut draw, false);
            let state = draw.state();
            if let Some(gains) = gains(&c, state) {
                case(gains.iter().all(|&g| g == 0), &|| format!("gains {gains:?}: {}", c.shown()));
            }
        }
    });
}
