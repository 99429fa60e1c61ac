//! Diffusions and normal draws: the source's own answers, every bit, for drawn nets and requests, beside the proved library's. What document 01 adds to
//! the source, the refusals and the parts of a gated net, is worked out here.
use crate::draw::Draw;
use crate::ensembles::{fault, holds, Case};
use crate::nets::{Arc, Label, Move, Net, Place};
use crate::paths::{self, BEFORE, CELLS};
use crate::rattle;
use crate::report::{same, Report};
use crate::ssa::inside::filled;
use crate::ssa::sde::inside::{normals_from, path};
use crate::ssa::{simulate_sde_compiled, SdeOptions};
use std::fmt::Write;

/// What the library tells, and the answer's cells of the three tables; none where nothing is touched.
type Answer = ([u64; 7], Option<[Vec<f64>; 3]>);

fn turned_down(number: u64) -> Answer {
    ([number, 0, 0, 0, 0, 0, 0], None)
}

/// Reads, inhibitors, inputs that are not kinetic, the bounded places as bits, and 1 where there is a delay.
fn gates(net: &Net) -> [u64; 5] {
    let arcs = || net.moves.iter().flat_map(|m| &m.arcs);
    let count = |kind: u64| arcs().filter(|a| a.kind() == kind).count() as u64;
    let change = |m: &Move, p: usize| -> i64 {
        m.arcs.iter().filter(|a| a.place() == p).map(|a| match a.kind() {
            0 | 1 => -a.weight().max(1),
            2 => a.weight().max(1),
            _ => 0,
        }).sum()
    };
    let bounded = (0..net.places.len()).filter(|&p| net.places[p].capacity > 0 && net.moves.iter().any(|m| change(m, p) > 0));
    [count(3), count(4), count(1), bounded.map(|p| 1 << p).sum(), net.moves.iter().any(|m| m.delay > 0.0) as u64]
}

/// What document 01 says of the case, with tables of 2,048 cells. The numbers are the source's.
pub fn answer(case: &Case) -> Answer {
    if let Some(number) = fault(case) {
        return turned_down(number);
    }
    let n = case.samples as usize;
    let model = filled(&case.net);
    let options = SdeOptions { horizon: case.horizon, samples: n, realizations: case.realizations as usize, seed: case.seed };
    let theirs = simulate_sde_compiled(&model, &options).expect("the request fits");
    let [reads, blocks, plain, bounded, delayed] = gates(&case.net);
    assert_eq!(theirs.diverged, [reads, blocks, plain, bounded, delayed] != [0; 5]);
    if theirs.diverged {
        return ([100, 0, reads, blocks, plain, bounded, delayed], None);
    }
    let base = if case.seed == 0 { 1 } else { case.seed };
    let last = path(&model, case.horizon, n, base.wrapping_add(case.realizations - 1));
    let deviation = theirs.stddev.map_or(vec![0.0; last.len()], |sd| sd.concat());
    ([0, (case.realizations > 1) as u64, 0, 0, 0, 0, 0], Some([theirs.values.concat(), deviation, last]))
}

fn library_agrees(case: &Case, (told, cells): &Answer) -> bool {
    let mut tables = [vec![BEFORE; CELLS], vec![BEFORE; CELLS], vec![BEFORE; CELLS]];
    let ours = rattle::diffusion(&rattle::Fields::of(&case.net), case.samples, case.realizations, case.seed, case.horizon, &mut tables);
    ours == *told && (0..3).all(|t| holds(&tables[t], cells.as_ref().map_or(&[], |c| &c[t])))
}

// ---- the program's form

/// The line that crates/diffusion_replay writes for a case: what it tells, and of each table the answer's cells and the one behind them.
fn line(case: &Case, (told, cells): &Answer) -> String {
    let [number, k, gates @ ..] = told;
    let mut out = match number {
        0 => format!("averaged {k}"),
        100 => format!("gated {}", gates.map(|g| g.to_string()).join(" ")),
        _ => format!("refused {number}"),
    };
    let (places, samples) = (case.net.places.len(), case.samples as usize);
    let shown = if places > 32 || samples > CELLS { 0 } else { CELLS.min(places * samples + 1) };
    for t in 0..3 {
        let mut table = vec![BEFORE; CELLS];
        if let Some(cells) = cells {
            table[..cells[t].len()].copy_from_slice(&cells[t]);
        }
        for x in &table[..shown] {
            if x.is_nan() { out.push_str(" nan") } else { write!(out, " {:016x}", x.to_bits()).unwrap() }
        }
    }
    out.push('\n');
    out
}

/// Writes the recorded sample, `stdin` and `stdout` of crates/diffusion_replay: document 01's net, and drawn cases of few cells.
pub fn record(folder: &str) {
    let mut draw = Draw::new(crate::sample::SEED);
    let example = Case { net: crate::nets::example(), samples: 3, realizations: 1, seed: 1, horizon: 2.0 };
    let drawn = std::iter::repeat_with(|| drawn(&mut draw)).filter(|c| c.net.places.len() as u64 * c.samples <= 40 && c.net.moves.len() <= 8);
    let (mut input, mut output) = (String::new(), String::new());
    for case in std::iter::once(example).chain(drawn).take(80) {
        paths::put_net(&mut input, &case.net);
        for x in [case.samples, case.realizations, case.seed, case.horizon.to_bits()] {
            writeln!(input, "{x:016x}").unwrap();
        }
        output.push_str(&line(&case, &answer(&case)));
    }
    for (name, text) in [("stdin", &input), ("stdout", &output)] {
        let path = format!("{folder}/{name}");
        std::fs::write(&path, text).unwrap_or_else(|e| panic!("{path}: {e}"));
    }
}

// ---- drawn cases

fn drawn_net(draw: &mut Draw) -> Net {
    let (most_places, most_moves) = paths::one_of(draw, &[(32, 65), (32, 7), (5, 65), (5, 7), (5, 7), (5, 7), (5, 7), (5, 7)]);
    let places = 1 + draw.below(most_places) as usize;
    let moves = draw.below(most_moves);
    let places: Vec<Place> = (0..places)
        .map(|p| Place {
            initial: match draw.below(12) {
                0 => 0,
                1 => draw.below(1 << 53) as i64,
                2..=4 => draw.below(5) as i64,
                _ => draw.below(2000) as i64,
            },
            // a bound that no transition can reach gates nothing
            capacity: if draw.below(60) == 0 { 1 + draw.below(9) as i64 } else { 0 },
            label: Label::numbered(p),
        })
        .collect();
    let moves = (0..moves)
        .map(|_| {
            let (mut taken, mut left) = (vec![false; places.len()], 16);
            let arcs = (0..1 + draw.below(5))
                .filter_map(|_| {
                    let place = draw.below(places.len() as u64) as usize;
                    let weight = match draw.below(12) {
                        0 => 0,
                        1..=2 => 2,
                        3 => 1 + draw.below(9) as i64,
                        _ => 1,
                    };
                    match draw.below(300) {
                        0 => Some(Arc::Read { place, weight }),
                        1 => Some(Arc::Block { place, weight }),
                        2 if !taken[place] => {
                            taken[place] = true;
                            Some(Arc::Take { place, weight, kinetic: false })
                        }
                        3..=150 if !taken[place] && weight.max(1) <= left => {
                            taken[place] = true;
                            left -= weight.max(1);
                            Some(Arc::Take { place, weight, kinetic: true })
                        }
                        _ => Some(Arc::Put { place, weight }),
                    }
                })
                .collect::<Vec<_>>();
            let timed = draw.below(100) == 0 && taken.contains(&true);
            Move {
                rate: match draw.below(20) {
                    0..=2 => 0.0,
                    3 => -0.0,
                    4 => 2f64.powi(draw.below(201) as i32 - 100),
                    _ => (draw.unit() * 8.0 - 7.0).exp2(),
                },
                delay: if timed { 1.0 } else { 0.0 },
                arcs,
            }
        })
        .collect();
    Net { places, moves }
}

pub fn drawn(draw: &mut Draw) -> Case {
    let mut net = drawn_net(draw);
    let places = net.places.len() as u64;
    if draw.below(40) == 0 {
        paths::spoil(draw, &mut net);
    }
    Case {
        net,
        samples: match draw.below(16) {
            0 => draw.below(2048),
            1 => 1024.min(CELLS as u64 / places),
            _ => 2 + draw.below(12),
        },
        realizations: paths::one_of(draw, &[1, 1, 2, 2, 3, 17]) * (draw.below(40) != 0) as u64,
        seed: match draw.below(6) {
            0 => 0,
            1 => u64::MAX - draw.below(3),
            _ => draw.word(),
        },
        horizon: match draw.below(16) {
            0 => paths::one_of(draw, &[0.0, -0.0, f64::NAN, -1.0, 2f64.powi(31), f64::from_bits(1), f64::from_bits(700), 2f64.powi(-1000)]),
            1 => 2f64.powi(30),
            _ => paths::one_of(draw, &[0.01, 0.5, 1.0, 2.0, 3.0, 10.0]),
        },
    }
}

pub fn compare(report: &mut Report, seed: u64, count: u64) {
    report.compare("normal draws, the spare kept across calls", |case| {
        let mut draw = Draw::new(seed);
        for k in 0..count {
            let state = if k % 3 == 0 { draw.state() } else { [draw.word(), draw.word(), draw.word(), draw.word()] };
            if state == [0; 4] {
                continue;
            }
            let spare = (draw.below(3) == 0).then(|| draw.unit());
            let (theirs, after, left) = normals_from(state, spare, 50);
            let (mut ours, mut words, mut float, mut waiting) = (vec![0.0; 50], state, spare.unwrap_or(0.0), spare.is_some());
            let cut = draw.below(51) as usize;
            let first = rattle::normals(&mut words, &mut float, &mut waiting, &mut ours[..cut]);
            let second = rattle::normals(&mut words, &mut float, &mut waiting, &mut ours[cut..]);
            let agrees = first + second == 50
                && ours.iter().zip(&theirs).all(|(a, b)| same(*a, *b))
                && words == after
                && waiting == left.is_some()
                && left.map_or(true, |v| same(v, float));
            case(agrees, &|| format!("state {state:?} spare {spare:?}"));
        }
    });
    report.compare("a normal draw that is refused leaves the sampler", |case| {
        for waiting in [false, true] {
            let (mut out, mut words, mut float, mut flag) = ([7.0; 3], [0; 4], 0.25, waiting);
            let n = rattle::normals(&mut words, &mut float, &mut flag, &mut out);
            let left = if waiting { [0.25, 7.0, 7.0] } else { [7.0; 3] };
            case(n == waiting as usize && out == left && words == [0; 4] && float == 0.25 && !flag, &|| format!("{n} {out:?} {words:?} {float} {flag}"));
        }
    });
    report.compare("diffusions against the source", |case| {
        let (mut draw, mut labels) = (Draw::new(seed), Draw::new(seed));
        for k in 0..count {
            let mut c = drawn(&mut draw);
            let a = answer(&c);
            case(library_agrees(&c, &a), &|| format!("case {k}: {:?}", a.0));
            paths::relabel(&mut labels, &mut c.net);
            case(library_agrees(&c, &a), &|| format!("case {k} with other labels: {:?}", a.0));
            paths::spoil_label(&mut labels, &mut c.net);
            if fault(&c).is_some() {
                let a = answer(&c);
                case(library_agrees(&c, &a), &|| format!("case {k} with damaged labels: {:?}", a.0));
            }
        }
    });
}
