//! Every leaf function against the source's, or against Rust's own where the source uses that.
use crate::binomials::exact;
use crate::draw::{floats, words, Draw};
use crate::rattle;
use crate::report::{same, Report};
use crate::ssa::portable_log;
use crate::ssa::{combinations, combinations_real, plog, splitmix64, Xoshiro256};

/// What document 01 says of the integer form: the source's value, or none where it is refused.
pub fn ways(m: i64, w: i64) -> Option<f64> {
    if w > 0 && m >= w && (w > 16 || m > 1 << 53) {
        None
    } else {
        Some(combinations(m, w))
    }
}

/// The same of the real form.
pub fn ways_real(x: f64, w: i64) -> Option<f64> {
    if w > 16 {
        None
    } else {
        Some(combinations_real(x, w))
    }
}

/// Document 01 leaves frexp open at a NaN, whose pattern cannot be read: docs/DIFFERENCES.md.
pub fn parts(x: f64) -> (f64, i32) {
    if x.is_nan() {
        (0.75, 1025)
    } else {
        portable_log::frexp(x)
    }
}

fn same_option(a: Option<f64>, b: Option<f64>) -> bool {
    match (a, b) {
        (Some(a), Some(b)) => same(a, b),
        (None, None) => true,
        _ => false,
    }
}

/// `n` is the number of random inputs of each comparison.
pub fn compare(report: &mut Report, seed: u64, n: u64) {
    let mut draw = Draw::new(seed);
    the_words(report, &mut draw, n);
    the_generator(report, &mut draw, n);
    its_laws(report, &mut draw, n);
    the_floats(report, &mut draw, n);
    the_combinations(report, &mut draw, n);
    the_slices(report, &mut draw, n);
}

fn the_words(report: &mut Report, draw: &mut Draw, n: u64) {
    report.compare("wrapping_mul", |case| {
        let mut one = |a: u64, b: u64| {
            let (ours, theirs) = (rattle::wrapping_mul(a, b), a.wrapping_mul(b));
            case(ours == theirs, &|| format!("{a:#x} * {b:#x}: {ours:#x}, Rust {theirs:#x}"));
        };
        for &a in &words() {
            for &b in &words() {
                one(a, b);
            }
        }
        for _ in 0..n {
            one(draw.any_length(), draw.word());
        }
    });
    report.compare("rotate_left", |case| {
        let mut one = |x: u64, k: u32| {
            let (ours, theirs) = (rattle::rotate_left(x, k), x.rotate_left(k));
            case(ours == theirs, &|| format!("{x:#x} by {k}: {ours:#x}, Rust {theirs:#x}"));
        };
        for &x in &words() {
            for k in 0..=256 {
                one(x, k);
            }
            for k in [1 << 16, 1 << 31, (1 << 31) + 1, u32::MAX - 63, u32::MAX - 64, u32::MAX] {
                one(x, k);
            }
        }
        for _ in 0..n {
            one(draw.word(), draw.any_length() as u32);
        }
    });
}

/// How many outputs are taken from each state.
const OUTPUTS: u64 = 32;

/// Zero, all ones, each single bit, and the states of seeds at edges.
fn special_states() -> Vec<[u64; 4]> {
    let mut v = vec![[0; 4], [u64::MAX; 4], [1, 2, 3, 4]];
    for i in 0..256 {
        let mut s = [0; 4];
        s[i / 64] = 1 << (i % 64);
        v.push(s);
    }
    v.extend(words().iter().map(|&seed| Xoshiro256::new(seed).state()));
    v
}

fn the_generator(report: &mut Report, draw: &mut Draw, n: u64) {
    report.compare("splitmix64", |case| {
        let mut one = |seed: u64| {
            let (ours, theirs) = (rattle::splitmix64(seed), splitmix64(seed));
            case(ours == theirs, &|| format!("seed {seed:#x}: {ours:x?}, Rust {theirs:x?}"));
        };
        for &seed in &words() {
            one(seed);
        }
        for _ in 0..n {
            one(draw.any_length());
        }
    });
    let states = |draw: &mut Draw| -> Vec<[u64; 4]> {
        let mut v = special_states();
        v.extend((0..n / OUTPUTS).map(|_| draw.state()));
        v
    };
    report.compare("Xoshiro256 next_u64", |case| {
        for start in states(draw) {
            let mut ours = start;
            let mut theirs = Xoshiro256::from_state(start);
            for i in 0..OUTPUTS {
                let (a, b) = (rattle::next_u64(&mut ours), theirs.next_u64());
                case(a == b && ours == theirs.state(), &|| {
                    format!("state {start:x?}, output {i}: {a:#x} {ours:x?}, Rust {b:#x} {:x?}", theirs.state())
                });
            }
        }
    });
    report.compare("Xoshiro256 uniform", |case| {
        for start in states(draw) {
            let mut ours = start;
            let mut theirs = Xoshiro256::from_state(start);
            for i in 0..OUTPUTS {
                let (a, b) = (rattle::uniform(&mut ours), theirs.uniform());
                case(same(a, b) && ours == theirs.state(), &|| {
                    format!("state {start:x?}, draw {i}: {a:?} {ours:x?}, Rust {b:?} {:x?}", theirs.state())
                });
            }
        }
    });
}

/// The two facts of the method sheet, which document 02's order 12 asks for: the source's step is undone by the step back, in either order, and it passes
/// through the exclusive-or.
fn its_laws(report: &mut Report, draw: &mut Draw, n: u64) {
    let stepped = |s: [u64; 4]| {
        let mut g = Xoshiro256::from_state(s);
        g.next_u64();
        g.state()
    };
    let back = |mut s: [u64; 4]| {
        rattle::step_back(&mut s);
        s
    };
    let xored = |a: [u64; 4], b: [u64; 4]| [a[0] ^ b[0], a[1] ^ b[1], a[2] ^ b[2], a[3] ^ b[3]];
    let special = special_states();
    report.compare("Xoshiro256 step_back", |case| {
        let mut one = |s: [u64; 4]| {
            let (after, before) = (back(stepped(s)), stepped(back(s)));
            case(after == s && before == s, &|| format!("state {s:x?}: step and back {after:x?}, back and step {before:x?}"));
        };
        special.iter().for_each(|&s| one(s));
        for _ in 0..n {
            one(draw.state());
        }
    });
    report.compare("Xoshiro256 is linear", |case| {
        let mut one = |s: [u64; 4], t: [u64; 4]| {
            let mut both = xored(s, t);
            rattle::next_u64(&mut both);
            let apart = xored(stepped(s), stepped(t));
            case(both == apart, &|| format!("states {s:x?} and {t:x?}: {both:x?}, apart {apart:x?}"));
        };
        for &s in &special {
            one(s, [1, 2, 3, 4]);
            one(s, s);
        }
        for _ in 0..n {
            one(draw.state(), draw.state());
        }
    });
}

fn the_floats(report: &mut Report, draw: &mut Draw, n: u64) {
    // What a run hands to the logarithm, and numbers near 1 and near the branch.
    let near = |draw: &mut Draw, x: f64| f64::from_bits(x.to_bits().wrapping_add(draw.below(4096)).wrapping_sub(2048));
    report.compare("frexp", |case| {
        let mut one = |x: f64| {
            let (ours, theirs) = (rattle::frexp(x), parts(x));
            case(same(ours.0, theirs.0) && ours.1 == theirs.1, &|| format!("{x:?}: {ours:?}, Rust {theirs:?}"));
        };
        floats().into_iter().for_each(&mut one);
        for _ in 0..n {
            one(draw.float());
            one(f64::from_bits(draw.word() >> (12 + draw.below(52))));
        }
    });
    report.compare("plog", |case| {
        let mut one = |x: f64| {
            let (ours, theirs) = (rattle::plog(x), plog(x));
            case(same(ours, theirs), &|| format!("{x:?}: {ours:?}, Rust {theirs:?}"));
        };
        floats().into_iter().for_each(&mut one);
        for _ in 0..n {
            one(draw.float());
            one(1.0 - draw.unit());
            one(near(draw, 1.0));
            one(near(draw, std::f64::consts::FRAC_1_SQRT_2));
            one(f64::from_bits(draw.word() >> (12 + draw.below(52))));
        }
    });
    // The same by the output that a number is drawn from. n * 2^-53 is left: n beside each power of two and each power of two over sqrt(2), and any n, short ones
    // too. The lowest 11 bits of an output have no part in it.
    report.compare("plog_of_rest", |case| {
        const WHOLE: u64 = 1 << 53;
        let mut one = |x: u64| {
            let (ours, theirs) = (rattle::plog_of_rest(x), plog(1.0 - (x >> 11) as f64 * (1.0 / WHOLE as f64)));
            case(same(ours, theirs), &|| format!("{x:#x}: {ours:?}, Rust {theirs:?}"));
        };
        words().into_iter().for_each(&mut one);
        for k in 0..54 {
            let power = 1u64 << k;
            for n in [power, (power as f64 * std::f64::consts::FRAC_1_SQRT_2) as u64] {
                for near in n.saturating_sub(2).max(1)..=(n + 2).min(WHOLE) {
                    one((WHOLE - near) << 11);
                    one((WHOLE - near) << 11 | 0x7FF);
                }
            }
        }
        for _ in 0..n {
            one(draw.word());
            one((WHOLE - 1 - (draw.any_length() >> 11)) << 11 | draw.below(2048));
        }
    });
    report.compare("sqrt", |case| {
        let mut one = |x: f64| {
            let (ours, theirs) = (rattle::sqrt(x), x.sqrt());
            case(same(ours, theirs), &|| format!("{x:?}: {ours:?}, Rust {theirs:?}"));
        };
        floats().into_iter().for_each(&mut one);
        for whole in 0..4096 {
            one((whole * whole) as f64);
        }
        for _ in 0..n {
            one(draw.float());
            one(f64::from_bits(draw.word() >> 1));
            one(f64::from_bits(draw.word() >> (12 + draw.below(52))));
            // A square, which may be exact, with its neighbours: there the nearest root changes.
            let r = f64::from_bits(0x3FF0_0000_0000_0000 | draw.word() >> (12 + draw.below(52)) << draw.below(52) & 0x000F_FFFF_FFFF_FFFF);
            let square = (r * r).to_bits();
            one(f64::from_bits(square - 1));
            one(f64::from_bits(square));
            one(f64::from_bits(square + 1));
        }
    });
}

const ENDS: [i64; 9] = [i64::MIN, i64::MIN + 1, -(1 << 53), -1, (1 << 53) - 1, 1 << 53, (1 << 53) + 1, i64::MAX - 1, i64::MAX];

/// For each w, where a product of a step first can pass 2^53.
const BOUNDS: [u64; 17] = [1 << 53, 1 << 53, 94906266, 262145, 15248, 2932, 1015, 489, 290, 196, 146, 116, 97, 84, 75, 69, 64];

/// Counts at which the product of w factors may be exact or not: below 2^53, beside 2^40, other powers of two and the bounds, of few bits, and any.
fn large(draw: &mut Draw, w: usize) -> i64 {
    let one = |draw: &mut Draw| 1 << draw.below(53);
    let m = match draw.below(6) {
        0 => (1 << 53) - draw.below(1024),
        1 => (1 << 40) + draw.below(1024) - 512,
        2 => (1 << (4 + draw.below(49))) + draw.below(5) - 2,
        3 => BOUNDS[w] + draw.below(3) - 1,
        4 => one(draw) | one(draw) | one(draw),
        _ => draw.any_length() >> 11,
    };
    m as i64
}

fn the_combinations(report: &mut Report, draw: &mut Draw, n: u64) {
    report.compare("combinations", |case| {
        let mut one = |m: i64, w: i64| {
            let (ours, theirs) = (rattle::combinations(m, w).map(|v| v.0), ways(m, w));
            case(same_option(ours, theirs), &|| format!("({m}, {w}): {ours:?}, Rust and the limits {theirs:?}"));
        };
        for m in (-20..300).chain(ENDS) {
            for w in (-20..40).chain(ENDS) {
                one(m, w);
            }
        }
        for _ in 0..n {
            let m = draw.any_length() as i64 >> draw.below(12);
            one(m, draw.below(20) as i64 - 2);
        }
    });
    report.compare("combinations, exact or not", |case| {
        let mut one = |m: i64, w: i64| {
            let (ours, theirs) = (rattle::combinations(m, w).map(|v| v.1), ways(m, w).map(|x| exact(x, m, w)));
            case(ours == theirs, &|| format!("({m}, {w}): {ours:?}, by whole numbers {theirs:?}"));
        };
        for m in (-20..=300).chain(ENDS) {
            for w in (-2..=18).chain(ENDS) {
                one(m, w);
            }
        }
        for _ in 0..n / 2 {
            let w = 1 + draw.below(16);
            one(large(draw, w as usize), w as i64);
        }
        // a product on the way rounded, one more, and a float whose whole part is the binomial
        for (m, w, wanted) in [(79, 16, true), (80, 16, false), (125, 11, false)] {
            let ours = rattle::combinations(m, w);
            case(ours.is_some_and(|v| v.1 == wanted), &|| format!("({m}, {w}): {ours:?}, known {wanted}"));
        }
    });
    report.compare("combinations_real", |case| {
        let mut one = |x: f64, w: i64| {
            let (ours, theirs) = (rattle::combinations_real(x, w), ways_real(x, w));
            case(same_option(ours, theirs), &|| format!("({x:?}, {w}): {ours:?}, Rust and the limit {theirs:?}"));
        };
        for x in floats().into_iter().step_by(7) {
            for w in [i64::MIN, -1, 0, 1, 2, 3, 15, 16, 17, 18, i64::MAX] {
                one(x, w);
            }
        }
        for _ in 0..n {
            one(draw.float(), draw.below(20) as i64 - 2);
            one(draw.unit() * 40.0 - 4.0, draw.below(20) as i64 - 2);
            one(draw.below(40) as f64, draw.below(20) as i64 - 2);
        }
    });
}

/// The functions on whole slices, of every length up to 40 and one long one.
fn the_slices(report: &mut Report, draw: &mut Draw, n: u64) {
    report.compare("whole slices", |case| {
        for len in (0..40).chain([n as usize]) {
            let words: Vec<u64> = (0..len).map(|_| draw.word()).collect();
            let floats: Vec<f64> = (0..len).map(|_| draw.float()).collect();
            let by = draw.word();
            let k = draw.any_length() as u32;
            let state = draw.state();

            let mut ours = words.clone();
            rattle::products(&mut ours, by);
            case(ours.iter().zip(&words).all(|(a, b)| *a == b.wrapping_mul(by)), &|| format!("products, length {len}"));

            let mut ours = words.clone();
            rattle::rotations(&mut ours, k);
            case(ours.iter().zip(&words).all(|(a, b)| *a == b.rotate_left(k)), &|| format!("rotations, length {len}"));

            let mut ours = floats.clone();
            rattle::plogs(&mut ours);
            case(ours.iter().zip(&floats).all(|(a, b)| same(*a, plog(*b))), &|| format!("logarithms, length {len}"));

            let mut ours = floats.clone();
            rattle::roots(&mut ours);
            case(ours.iter().zip(&floats).all(|(a, b)| same(*a, b.sqrt())), &|| format!("roots, length {len}"));

            let mut ours = words.clone();
            let mut after = state;
            let mut theirs = Xoshiro256::from_state(state);
            rattle::outputs(&mut after, &mut ours);
            case(ours.iter().all(|a| *a == theirs.next_u64()) && after == theirs.state(), &|| format!("outputs, length {len}"));

            let mut ours = floats.clone();
            let mut after = state;
            let mut theirs = Xoshiro256::from_state(state);
            rattle::uniforms(&mut after, &mut ours);
            case(ours.iter().all(|a| same(*a, theirs.uniform())) && after == theirs.state(), &|| format!("uniforms, length {len}"));
        }
    });
}
