//! Why a net has no diffusion: the source's own `reason`, every byte, labels standing for place ids, beside the proved library's text. What document 02
//! adds, the lent buffer, the refusals of a net and 19, is worked out here.
use crate::draw::Draw;
use crate::nets::{example, Arc, Label, Move, Net, Place};
use crate::paths::{drawn_label, one_of, spoil, spoil_label};
use crate::player::fault;
use crate::rattle;
use crate::report::Report;
use crate::ssa::inside::filled;
use crate::ssa::{simulate_sde_compiled, SdeOptions};
use std::collections::BTreeSet;

/// What stands in each byte before the call, and how many bytes of the buffer are not lent.
const BEFORE: u8 = b'*';
const BEYOND: usize = 9;

/// The source's text for a net that is accepted; empty where it is not gated.
fn reason(net: &Net) -> String {
    let options = SdeOptions { horizon: 1.0, samples: 2, realizations: 1, seed: 1 };
    simulate_sde_compiled(&filled(net), &options).expect("the request fits").reason
}

/// Does the library, lent so many bytes, answer as it has to, and leave every other byte?
fn agrees(fields: &rattle::Fields, expected: Result<&str, u64>, lent: usize) -> bool {
    let mut buffer = vec![BEFORE; lent + BEYOND];
    let mut left = buffer.clone();
    let told = match expected {
        Ok(text) if text.len() <= lent => {
            left[..text.len()].copy_from_slice(text.as_bytes());
            [0, text.len() as u64]
        }
        Ok(_) => [19, 0],
        Err(number) => [number, 0],
    };
    rattle::reason(fields, &mut buffer[..lent]) == told && buffer == left
}

/// A net of few or many arcs, with any of the five kinds of gate; one in eight is damaged.
fn drawn(draw: &mut Draw) -> Net {
    let (most_places, most_moves) = one_of(draw, &[(2, 3), (5, 3), (5, 9), (32, 9), (32, 65)]);
    let places = 1 + draw.below(most_places) as usize;
    let [read, block, plain, bounded, timed] = std::array::from_fn(|_| draw.below(2) == 0);
    let places: Vec<Place> = (0..places)
        .map(|p| Place {
            initial: draw.below(9) as i64,
            capacity: if bounded && draw.below(3) > 0 { 1 + draw.below(9) as i64 } else { 0 },
            label: if draw.below(2) == 0 { Label::numbered(p) } else { drawn_label(draw, p) },
        })
        .collect();
    let moves = (0..draw.below(most_moves))
        .map(|_| {
            let (mut taken, mut left) = (vec![false; places.len()], 16);
            let arcs: Vec<Arc> = (0..draw.below(17))
                .filter_map(|_| {
                    let (place, weight) = (draw.below(places.len() as u64) as usize, draw.below(4) as i64);
                    let amount = weight.max(1);
                    match draw.below(12) {
                        0 if read => Some(Arc::Read { place, weight }),
                        1 if block => Some(Arc::Block { place, weight }),
                        2..=4 if plain && !taken[place] => {
                            taken[place] = true;
                            Some(Arc::Take { place, weight, kinetic: false })
                        }
                        5..=8 if !taken[place] && amount <= left => {
                            (taken[place], left) = (true, left - amount);
                            Some(Arc::Take { place, weight, kinetic: true })
                        }
                        9..=11 => Some(Arc::Put { place, weight }),
                        _ => None,
                    }
                })
                .collect();
            let delayed = timed && draw.below(2) == 0 && taken.contains(&true);
            Move { rate: one_of(draw, &[0.0, 1.0, 0.5]), delay: if delayed { 0.5 } else { one_of(draw, &[0.0, -0.0]) }, arcs }
        })
        .collect();
    let mut net = Net { places, moves };
    match draw.below(16) {
        0 => spoil(draw, &mut net),
        1 => spoil_label(draw, &mut net),
        _ => {}
    }
    net
}

/// The longest text: every place bounded, with a label of sixteen bytes, and as many arcs of each kind as make three digits.
fn longest() -> Net {
    let places = (0..32).map(|p| Place { initial: 0, capacity: 1, label: Label::new(format!("{p:-<16}").as_bytes()) }).collect();
    let one = |j: usize| {
        let arc = |i: usize| match (j, i) {
            (_, 0) => Arc::Put { place: j % 32, weight: 1 },
            (_, 1..=5) => Arc::Read { place: i, weight: 1 },
            (_, 6..=10) => Arc::Block { place: i, weight: 1 },
            _ => Arc::Take { place: (j + i) % 32, weight: 1, kinetic: false },
        };
        Move { rate: 1.0, delay: 1.0, arcs: (0..16).map(arc).collect() }
    };
    Net { places, moves: (0..64).map(one).collect() }
}

/// Which of the five parts a text has, as bits.
fn parts(text: &str) -> u32 {
    let words = [" read arc(s)", " inhibitor arc(s)", " non-kinetic input arc(s)", "capacity is declared on [", "a delay is a deterministic timer"];
    words.iter().enumerate().map(|(i, w)| (text.contains(w) as u32) << i).sum()
}

pub fn compare(report: &mut Report, seed: u64, count: u64) {
    let mut seen = BTreeSet::new();
    report.compare("reasons against the source, buffers one short, exact and longer", |case| {
        let mut draw = Draw::new(seed);
        for k in 0..count {
            let net = match k {
                0 => example(),
                1 => longest(),
                _ => drawn(&mut draw),
            };
            let text = fault(&net).map_or_else(|| Ok(reason(&net)), Err);
            let expected = text.as_ref().map(String::as_str).map_err(|number| *number);
            let length = expected.map_or(0, str::len);
            let fields = rattle::Fields::of(&net);
            let mut sizes = vec![length, length + 1 + draw.below(100) as usize, 0];
            sizes.extend(length.checked_sub(1));
            case(sizes.iter().all(|&n| agrees(&fields, expected, n)), &|| format!("case {k}: {expected:?}"));
            seen.extend(expected.map(parts));
        }
    });
    report.compare("each of the 32 choices of parts", |case| (0..32).for_each(|p| case(seen.contains(&p), &|| format!("parts {p:05b} not drawn"))));
    report.compare("the reason for document 01's net has 307 bytes", |case| case(reason(&example()).len() == 307, &String::new));
}
