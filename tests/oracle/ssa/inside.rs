//! Added to the source's module as its child, so that it can fill the private records: what
//! document 01 says that compiling a net yields, arcs in line order; labels stand for place ids.
use super::{Compiled, CompiledModel};
use crate::nets::{Arc, Net};

fn weight(w: i64) -> i64 {
    if w == 0 {
        1
    } else {
        w
    }
}

pub fn filled(net: &Net) -> CompiledModel {
    let transitions = net
        .moves
        .iter()
        .map(|m| {
            let mut c = Compiled {
                rate: if m.delay > 0.0 {
                    0.0
                } else if m.rate == 0.0 {
                    1.0
                } else {
                    m.rate
                },
                delay: m.delay,
                inputs: vec![],
                outputs: vec![],
                reads: vec![],
                inhibits: vec![],
                caps: vec![],
            };
            let mut change = vec![0i64; net.places.len()];
            for arc in &m.arcs {
                match *arc {
                    Arc::Take { place, weight: w, kinetic } => {
                        change[place] -= weight(w);
                        c.inputs.push((place, weight(w), kinetic));
                    }
                    Arc::Put { place, weight: w } => {
                        change[place] += weight(w);
                        c.outputs.push((place, weight(w)));
                    }
                    Arc::Read { place, weight: w } => c.reads.push((place, weight(w))),
                    Arc::Block { place, weight: w } => c.inhibits.push((place, weight(w))),
                }
            }
            for (p, place) in net.places.iter().enumerate() {
                if place.capacity > 0 && change[p] > 0 {
                    c.caps.push((p, change[p], place.capacity));
                }
            }
            c
        })
        .collect();
    CompiledModel {
        place_ids: net.places.iter().map(|p| p.label.text().into()).collect(),
        initial: net.places.iter().map(|p| p.initial).collect(),
        transitions,
    }
}
