//! Which transitions each place lists, document 02's order 5. The library's table, a word for each place, is held to a second working of the order's words:
//! "for each place, the transitions with an input, read or inhibitor on it, or a net change above 0 on it where its capacity is above 0".
use crate::balances;
use crate::draw::Draw;
use crate::games;
use crate::kept;
use crate::nets::{Arc, Label, Move, Net};
use crate::paths::{self, block, bounded, plain, put, read, take};
use crate::player;
use crate::rattle::{self, Fields};
use crate::report::Report;
use std::collections::BTreeMap;

type Masks = [u64; 32];

// ---- the second working

/// "With an input, read or inhibitor on it".
fn by_arc(m: &Move, p: usize) -> bool {
    m.arcs.iter().any(|arc| arc.place() == p && !matches!(arc, Arc::Put { .. }))
}

/// Its puts into place p less its takes from it, a weight of 0 as 1.
fn change(m: &Move, p: usize) -> i64 {
    m.arcs
        .iter()
        .map(|arc| match *arc {
            Arc::Put { place, weight } if place == p => weight.max(1),
            Arc::Take { place, weight, .. } if place == p => -weight.max(1),
            _ => 0,
        })
        .sum()
}

/// "A net change above 0 on it where its capacity is above 0".
fn by_capacity(net: &Net, m: &Move, p: usize) -> bool {
    net.places[p].capacity > 0 && change(m, p) > 0
}

/// The net's own refusal and the masks as they were, or 0 and the index.
fn worked(net: &Net, before: &Masks) -> (u64, Masks) {
    if let Some(number) = player::fault(net) {
        return (number, *before);
    }
    let listed = |p: usize| (0..net.moves.len()).filter(|&j| by_arc(&net.moves[j], p) || by_capacity(net, &net.moves[j], p)).map(|j| 1 << j).sum();
    (0, std::array::from_fn(|p| if p < net.places.len() { listed(p) } else { 0 }))
}

// ---- the cases

/// Nets with the masks of their places, by hand.
fn edges() -> Vec<(Net, Vec<u64>)> {
    let mut v = vec![];
    let net = |places: usize, arcs: &[&[Arc]]| paths::net(&vec![1; places], arcs.iter().map(|a| (1.0, 0.0, a.to_vec())).collect());
    let mut told = |net: Net, masks: &[u64]| v.push((net, masks.to_vec()));
    // no transitions, and one without arcs
    for places in [1, 2, 31, 32] {
        told(net(places, &[]), &[]);
        told(net(places, &[&[]]), &[]);
    }
    // every kind of arc, of a weight of 0, 1 and more: a put alone lists nothing
    for w in [0, 1, 5, 1_000_000] {
        told(net(2, &[&[plain(0, w)], &[put(0, w)], &[read(0, w)], &[block(0, w)]]), &[0b1101]);
        told(net(2, &[&[put(1, w)], &[block(1, w)], &[read(1, w)], &[plain(1, w)]]), &[0, 0b1110]);
    }
    told(net(2, &[&[take(0, 16)], &[take(1, 0)], &[]]), &[0b1, 0b10]);
    // where the place is bounded it does, whatever the bound and the count; another place's bound does not matter
    for (w, capacity) in [(0, 1), (1, 1), (1_000_000, 1), (1, 1 << 53)] {
        told(bounded(net(2, &[&[put(0, w)], &[put(1, w)]]), &[capacity, 0]), &[0b01, 0]);
        told(bounded(net(2, &[&[put(0, w)], &[put(1, w)]]), &[0, capacity]), &[0, 0b10]);
        told(bounded(net(2, &[&[put(0, w)], &[put(1, w)]]), &[capacity, capacity]), &[0b01, 0b10]);
    }
    // several puts at one place; a place that is taken from too is listed by its take, whatever the change
    told(net(2, &[&[put(0, 1), put(0, 1)], &[put(0, 1), put(1, 1), put(0, 0)]]), &[0, 0]);
    told(bounded(net(2, &[&[put(0, 1), put(0, 1)], &[put(0, 1), put(1, 1), put(0, 0)]]), &[1, 0]), &[0b11, 0]);
    for capacity in [0, 1] {
        for w in [0, 1, 2, 3] {
            told(bounded(net(1, &[&[take(0, 2), put(0, w)], &[put(0, w), plain(0, 2)]]), &[capacity]), &[0b11]);
        }
    }
    // a transition once, though all its arcs are on one place; delayed ones like any other
    told(bounded(net(1, &[&[take(0, 1), read(0, 2), block(0, 9), put(0, 1), put(0, 1), read(0, 3)]]), &[5]), &[0b1]);
    told(paths::net(&[1, 0, 0], vec![(0.0, 1.0, vec![take(0, 1), put(1, 1)]), (1.0, 0.0, vec![take(1, 1), put(2, 1)]), (0.0, 0.5, vec![take(2, 1), put(0, 1)])]), &[0b001, 0b010, 0b100]);
    told(bounded(paths::net(&[1, 0, 0], vec![(0.0, 1.0, vec![take(0, 1), put(1, 1)]), (0.0, 1.0, vec![take(0, 1), put(2, 1)])]), &[0, 1, 1]), &[0b11, 0b01, 0b10]);
    // document 01's net
    told(crate::nets::example(), &[1, 0]);
    // 64 transitions at 32 places: transition j takes from place j modulo 32 and puts into the next, of which the odd ones are bounded
    let ring: Vec<Vec<Arc>> = (0..64).map(|j| vec![take(j % 32, 1), put((j + 1) % 32, 1)]).collect();
    let ring = net(32, &ring.iter().map(|a| &a[..]).collect::<Vec<_>>());
    let taking = |p: u64| 1 << p | 1 << (p + 32);
    told(ring.clone(), &(0..32).map(taking).collect::<Vec<u64>>());
    let odd: Vec<i64> = (0..32).map(|p| p % 2).collect();
    told(bounded(ring, &odd), &(0..32).map(|p| taking(p) | if p % 2 == 1 { taking(p - 1) } else { 0 }).collect::<Vec<u64>>());
    // all 64 by the last arc of sixteen
    let last: Vec<Arc> = (0..15).map(|_| put(0, 1)).chain([read(31, 1)]).collect();
    let mut masks = [0; 32];
    masks[31] = u64::MAX;
    told(net(32, &[&last[..]; 64]), &masks);
    masks[0] = u64::MAX;
    told(bounded(net(32, &[&last[..]; 64]), &[1]), &masks);
    v
}

/// A net of some kind that is accepted.
fn drawn(draw: &mut Draw) -> Net {
    match draw.below(9) {
        0..=2 => paths::drawn_net(draw),
        3 => games::drawn(draw).net,
        4 => balances::drawn_net(draw),
        5..=6 => kept::dense(draw),
        7 => kept::sparse(draw),
        _ => kept::timed(draw),
    }
}

/// Put into a net: one fault or two, mostly.
fn spoiled(draw: &mut Draw) -> Net {
    let mut net = drawn(draw);
    for _ in 0..1 + draw.below(2) {
        match draw.below(12) {
            0 => net.places.clear(),
            1 => net.places = (0..33).map(|p| crate::nets::Place { initial: 1, capacity: 0, label: Label::numbered(p) }).collect(),
            2 => net.moves = vec![Move { rate: 1.0, delay: 0.0, arcs: vec![] }; 65],
            3 if !net.moves.is_empty() => {
                let j = draw.below(net.moves.len() as u64) as usize;
                net.moves[j].arcs = vec![put(0, 1); 17];
            }
            4 => net.moves.push(Move { rate: 1.0, delay: 1.0, arcs: vec![put(0, 1)] }),
            5 => net.moves.push(Move { rate: 1.0, delay: 0.0, arcs: vec![take(0, 17)] }),
            6 => net.moves.push(Move { rate: 1.0, delay: 0.0, arcs: vec![take(0, 1), plain(0, 1)] }),
            _ if net.places.is_empty() => {}
            7..=8 => paths::spoil_label(draw, &mut net),
            _ => paths::spoil(draw, &mut net),
        }
    }
    net
}

/// How many bits are set, how many by a capacity alone, and how many of these by several puts; at how many places a transition takes and puts, and how many
/// of these are bounded and raised.
#[derive(Default)]
struct Seen {
    nets: u64,
    bits: u64,
    alone: u64,
    several: u64,
    both: u64,
    raised: u64,
}

impl Seen {
    fn add(&mut self, net: &Net) {
        self.nets += 1;
        for p in 0..net.places.len() {
            for m in &net.moves {
                let puts = m.arcs.iter().filter(|a| a.place() == p && matches!(a, Arc::Put { .. })).count();
                let takes = m.arcs.iter().any(|a| a.place() == p && a.kind() < 2);
                let alone = by_capacity(net, m, p) && !by_arc(m, p);
                self.bits += (by_arc(m, p) || alone) as u64;
                self.alone += alone as u64;
                self.several += (alone && puts > 1) as u64;
                self.both += (takes && puts > 0) as u64;
                self.raised += (takes && by_capacity(net, m, p)) as u64;
            }
        }
    }
}

fn shown(net: &Net) -> String {
    let mut text = String::new();
    paths::put_net(&mut text, net);
    text.lines().map(|l| l.trim_start_matches('0')).collect::<Vec<_>>().join(" ")
}

pub fn compare(report: &mut Report, seed: u64, count: u64) {
    let mut kinds: BTreeMap<u64, u64> = BTreeMap::new();
    let mut held = |case: &mut dyn FnMut(bool, &dyn Fn() -> String), draw: &mut Draw, net: &Net, told: Option<&[u64]>| {
        // anything in the masks before, and in the slots that are not looked at
        let before: Masks = std::array::from_fn(|_| draw.any_length());
        let fields = Fields::of(net).littered(draw);
        let mut masks = before;
        let number = rattle::index(&fields, &mut masks);
        let second = worked(net, &before);
        let by_hand = told.is_none_or(|t| number == 0 && masks[..t.len()] == *t && masks[t.len()..] == [0; 32][t.len()..]);
        *kinds.entry(number).or_default() += 1;
        case((number, masks) == second && by_hand, &|| format!("{number} {masks:x?}, worked {second:x?}, by hand {told:x?}, before {before:x?}: net {}", shown(net)));
    };
    report.compare("indexes, edges", |case| edges().iter().for_each(|(net, masks)| held(case, &mut Draw::new(seed), net, Some(masks))));
    let mut seen = Seen::default();
    report.compare("indexes of drawn nets", |case| {
        let mut draw = Draw::new(seed + 1);
        while seen.nets < count {
            let net = drawn(&mut draw);
            if player::fault(&net).is_none() {
                held(case, &mut draw, &net, None);
                seen.add(&net);
            }
        }
        // among them are enough of each kind
        let enough = seen.bits > 50 * count && seen.alone > 5 * count && seen.several > count / 10 && seen.both > count && seen.raised > count / 10;
        case(enough, &|| "too few bits of some kind".into());
    });
    let Seen { nets, bits, alone, several, both, raised } = seen;
    println!("  {nets} nets, {bits} bits set, {alone} of them by a capacity alone ({several} by several puts); {both} times a place is taken from and put into, {raised} times bounded and raised");
    report.compare("indexes of nets that are refused", |case| {
        let mut draw = Draw::new(seed + 2);
        for _ in 0..count {
            let net = spoiled(&mut draw);
            held(case, &mut draw, &net, None);
        }
    });
    report.compare("indexes, every refusal", |case| {
        for kind in [0, 2, 3, 4, 5, 6, 7, 17, 18] {
            case(kinds.get(&kind).is_some_and(|&n| n > count / 100), &|| format!("{kind} comes up too seldom: {kinds:?}"));
        }
    });
}
