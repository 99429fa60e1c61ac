//! The soak load through the library: against a writer over the source's generator, and at buffers that are long, exact and one byte short.
use crate::draw::Draw;
use crate::rattle;
use crate::report::Report;
use crate::ssa::Xoshiro256;

/// The text as document 02, order 14, has it.
fn text(seed: u64, places: u64, transitions: u64) -> String {
    let mut rng = Xoshiro256::new(if seed == 0 { 1 } else { seed });
    let mut choice = |options: u64| rng.next_u64() % options;
    let mut s = String::from("(net\n");
    for k in 0..places {
        s += &format!("(place {} 0 q{k})\n", choice(10));
    }
    for _ in 0..transitions {
        let (take, put, rate) = (choice(places), choice(places), [1.0, 2.0, 4.0, 8.0f64][choice(4) as usize]);
        s += &format!("(move {:016x} {:016x} (take {take} 1 1) (put {put} 1))\n", rate.to_bits(), 0);
    }
    s + &format!("(run 11 1 {seed} {:016x})\n)\n", 10.0f64.to_bits())
}

const FILL: u8 = 0xA5;

/// A call with a buffer of so many bytes: its numbers and what it left.
fn called(seed: u64, places: u64, transitions: u64, room: usize) -> ([u64; 2], Vec<u8>) {
    let mut out = vec![FILL; room];
    (rattle::soak(seed, places, transitions, &mut out), out)
}

pub fn compare(report: &mut Report, seed: u64, count: u64) {
    let mut draw = Draw::new(seed);
    let mut cases = vec![];
    for s in [0, 1, 2, 9, 10, 1 << 63, u64::MAX - 1, u64::MAX] {
        for p in [1, 2, 10, 11, 31, 32] {
            cases.extend([1, 2, 15, 16].map(|t| (s, p, t)));
        }
    }
    cases.extend((0..count).map(|_| (draw.any_length(), 1 + draw.below(32), 1 + draw.below(16))));
    report.compare("soak texts by the library", |case| {
        for &(s, p, t) in &cases {
            let wanted = text(s, p, t).into_bytes();
            let n = wanted.len();
            for room in [n, n + 1, 2000] {
                let (told, out) = called(s, p, t, room);
                let right = told == [0, n as u64] && out[..n] == wanted[..] && out[n..].iter().all(|&b| b == FILL);
                case(right, &|| format!("{s} {p} {t} in {room} bytes: {told:?}"));
            }
            for room in [n - 1, n / 2, 0] {
                let (told, out) = called(s, p, t, room);
                case(told == [19, 0] && out.iter().all(|&b| b == FILL), &|| format!("{s} {p} {t} in {room} bytes: {told:?}"));
            }
        }
    });
    report.compare("soak sizes by the library", |case| {
        for (p, t) in [(0, 1), (33, 1), (1, 0), (1, 17), (0, 0), (33, 17), (u64::MAX, 1), (1, u64::MAX), (1 << 32, 1), (1, 1 << 32)] {
            // 2 before 19: the buffer may be short too
            for room in [2000, 1, 0] {
                let (told, out) = called(draw.any_length(), p, t, room);
                case(told == [2, 0] && out.iter().all(|&b| b == FILL), &|| format!("{p} {t} in {room} bytes: {told:?}"));
            }
        }
    });
}
