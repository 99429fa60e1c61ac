//! The recorded sample: inputs for the program crates/replay, and the source's answers to them. A
//! line of input is a letter and two words of 16 hexadecimal digits; floats are given by their bits,
//! whole numbers with a sign with 2^62 added.
use crate::draw::Draw;
use crate::leaves::{parts, ways, ways_real};
use crate::ssa::{plog, splitmix64, Xoshiro256};
use std::fmt::Write;

/// The sample is a function of this number alone, so recording again changes nothing.
pub const SEED: u64 = 20;

struct Sample {
    input: String,
    answers: String,
    state: [u64; 4],
}

fn float(x: f64) -> String {
    if x.is_nan() {
        "nan".into()
    } else {
        format!("{:016x}", x.to_bits())
    }
}

fn optional(x: Option<f64>) -> String {
    x.map_or("refused".into(), float)
}

fn signed(z: i64) -> u64 {
    u64::try_from(z + (1 << 62)).unwrap()
}

fn all(ws: [u64; 4]) -> String {
    ws.map(|w| format!("{w:016x}")).join(" ")
}

impl Sample {
    fn line(&mut self, letter: char, a: u64, b: u64, answer: String) {
        writeln!(self.input, "{letter} {a:016x} {b:016x}").unwrap();
        writeln!(self.answers, "{answer}").unwrap();
    }

    fn product(&mut self, a: u64, b: u64) {
        self.line('m', a, b, format!("{:016x}", a.wrapping_mul(b)));
    }

    fn rotation(&mut self, x: u64, k: u32) {
        self.line('r', x, k as u64, format!("{:016x}", x.rotate_left(k)));
    }

    fn seed(&mut self, seed: u64) {
        self.state = splitmix64(seed);
        self.line('s', seed, 0, all(self.state));
    }

    /// Two words in front of the state, whose last two go.
    fn push(&mut self, a: u64, b: u64) {
        self.state = [a, b, self.state[0], self.state[1]];
        self.line('t', a, b, all(self.state));
    }

    fn draws(&mut self, outputs: usize, uniforms: usize) {
        let mut rng = Xoshiro256::from_state(self.state);
        for _ in 0..outputs {
            let answer = format!("{:016x}", rng.next_u64());
            self.line('n', 0, 0, answer);
        }
        for _ in 0..uniforms {
            let answer = float(rng.uniform());
            self.line('u', 0, 0, answer);
        }
        self.state = rng.state();
    }

    fn frexp(&mut self, x: f64) {
        let (frac, exp) = parts(x);
        self.line('f', x.to_bits(), 0, format!("{} {}", float(frac), float(exp as f64)));
    }

    fn plog(&mut self, x: f64) {
        self.line('l', x.to_bits(), 0, float(plog(x)));
    }

    fn combinations(&mut self, m: i64, w: i64) {
        self.line('c', signed(m), signed(w), optional(ways(m, w)));
    }

    fn combinations_real(&mut self, x: f64, w: i64) {
        self.line('d', x.to_bits(), signed(w), optional(ways_real(x, w)));
    }

    fn root(&mut self, x: f64) {
        self.line('q', x.to_bits(), 0, float(x.sqrt()));
    }
}

/// Floats at edges, few enough to be recorded.
fn edges() -> Vec<f64> {
    let mut v = vec![];
    for b in [0u64, 1, 2, 3, 0x000F_FFFF_FFFF_FFFF, 0x0010_0000_0000_0000, 0x7FEF_FFFF_FFFF_FFFF, 0x7FF0_0000_0000_0000, 0x7FF8_0000_0000_0000] {
        v.extend([f64::from_bits(b), f64::from_bits(b | 1 << 63)]);
    }
    for x in [0.25f64, 0.5, 0.5f64.sqrt(), 1.0, 2f64.sqrt(), 2.0, 4.0, 9007199254740992.0] {
        v.extend([x, f64::from_bits(x.to_bits() - 1), f64::from_bits(x.to_bits() + 1), -x]);
    }
    v
}

/// Writes `stdin` and `stdout` into the folder.
pub fn record(folder: &str) {
    let mut draw = Draw::new(SEED);
    let mut s = Sample { input: String::new(), answers: String::new(), state: [0; 4] };
    for a in [0, 1, 1 << 32, (1 << 32) - 1, u64::MAX] {
        for b in [0, 1, 1 << 32, (1 << 32) + 1, u64::MAX] {
            s.product(a, b);
        }
    }
    for _ in 0..100 {
        s.product(draw.any_length(), draw.word());
    }
    for k in (0..=130).chain([192, 255, 1 << 31, u32::MAX]) {
        s.rotation(draw.word(), k);
    }
    for seed in [0, 1, 1234567, u64::MAX, draw.word(), draw.word(), draw.any_length()] {
        s.seed(seed);
        s.draws(16, 16);
    }
    for state in [[1, 2, 3, 4], [0; 4], [u64::MAX; 4], draw.state(), draw.state(), draw.state()] {
        s.push(state[2], state[3]);
        s.push(state[0], state[1]);
        s.draws(16, 16);
    }
    for x in edges() {
        s.frexp(x);
        s.plog(x);
        s.root(x);
    }
    for _ in 0..120 {
        s.frexp(draw.float());
        s.plog(f64::from_bits(draw.word() >> 1));
        s.plog(1.0 - draw.unit());
        s.root(f64::from_bits(draw.word() >> 1));
        s.root(f64::from_bits(draw.word() >> (12 + draw.below(52))));
    }
    for w in -2..=18 {
        for m in [-(1 << 62), -1, 0, 1, 5, 16, 17, 100, 1 << 53, (1 << 53) + 1, (1 << 62) - 1] {
            s.combinations(m, w);
        }
        for x in [0.5, 3.0, -0.0, f64::INFINITY, f64::NAN, draw.unit() * 40.0 - 4.0, draw.float()] {
            s.combinations_real(x, w);
        }
    }
    for w in [-(1 << 62), (1 << 62) - 1] {
        s.combinations(5, w);
        s.combinations_real(5.0, w);
    }
    for (name, text) in [("stdin", &s.input), ("stdout", &s.answers)] {
        let path = format!("{folder}/{name}");
        std::fs::write(&path, text).unwrap_or_else(|e| panic!("{path}: {e}"));
    }
    println!("{} lines", s.input.lines().count());
}
