//! Cases for the program crates/carry_replay: a path call that names a number of steps, and a call that carries what it leaves to another net. Their answers
//! are the second player's, two lines a case.
use crate::carried::{carry, until, Carry, Lent, Until, GENERATOR, LIMIT, PEAK, RECORDED, ROUNDED, STEPS, TAKEN, TIMERS, TIMES, WHO, WORDS};
use crate::changes::drawn_change;
use crate::draw::Draw;
use crate::halts;
use crate::nets::{example, Label, Net, Place};
use crate::paths::{self, end_word, one_of, put_net, spoil, BEFORE, CELLS};
use crate::player::End;
use std::fmt::Write;

struct Case {
    first: Until,
    new: Net,
    pairs: Vec<u64>,
    named: u64,
}

fn put(out: &mut String, c: &Case) {
    put_net(out, &c.first.net);
    let first = c.first.generator.into_iter().chain([c.first.limit, c.first.named, c.first.instants.len() as u64]);
    first.chain(c.first.instants.iter().take(CELLS).map(|x| x.to_bits())).for_each(|n| writeln!(out, "{n:016x}").unwrap());
    put_net(out, &c.new);
    [c.pairs.len() as u64].iter().chain(&c.pairs).chain([&c.named]).for_each(|n| writeln!(out, "{n:016x}").unwrap());
}

/// The end and the settled instants, where the path stands, and the answer's cells with the one behind them.
fn line(c: &Case, lent: &Lent) -> String {
    let mut out = end_word(lent.told[0]);
    let w = &lent.words;
    [lent.told[2], w[STEPS], w[LIMIT], w[PEAK], w[ROUNDED], w[RECORDED]].iter().for_each(|n| write!(out, " {n}").unwrap());
    write!(out, " {:016x}", lent.times[0].to_bits()).unwrap();
    w[GENERATOR..][..4].iter().for_each(|n| write!(out, " {n:016x}").unwrap());
    w[..32].iter().chain([&w[TIMERS]]).for_each(|n| write!(out, " {n}").unwrap());
    for i in 0..w[TIMERS] as usize {
        write!(out, " {:016x} {} {}", lent.times[1 + i].to_bits(), w[WHO + i], w[TAKEN + i]).unwrap();
    }
    let places = c.first.net.places.len();
    let shown = if places > 32 { 0 } else { CELLS.min(places * c.first.instants.len() + 1) };
    lent.table[..shown].iter().for_each(|x| write!(out, " {:016x}", x.to_bits()).unwrap());
    out.push('\n');
    out
}

#[derive(Default)]
struct Batch {
    input: String,
    answers: String,
    kinds: std::collections::BTreeMap<String, u64>,
}

impl Batch {
    fn add(&mut self, c: &Case) {
        // a call that is turned down gives its generator back, and 0 else
        let mut lent = Lent { table: vec![BEFORE; CELLS], words: [0; WORDS], times: [0.0; TIMES], told: [0; 5] };
        lent.words[GENERATOR..][..4].copy_from_slice(&c.first.generator);
        until(&c.first, &mut lent);
        self.answers += &line(c, &lent);
        let on = Carry { old: c.first.net.clone(), new: c.new.clone(), pairs: c.pairs.clone(), instants: c.first.instants.clone(), named: c.named };
        carry(&on, &mut lent);
        self.answers += &line(c, &lent);
        *self.kinds.entry(end_word(lent.told[0])).or_default() += 1;
        put(&mut self.input, c);
    }

    fn write(&self, input: &str, answers: &str) {
        for (path, text) in [(input, &self.input), (answers, &self.answers)] {
            std::fs::write(path, text).unwrap_or_else(|e| panic!("{path}: {e}"));
        }
        let kinds: Vec<String> = self.kinds.iter().map(|(k, n)| format!("{k} {n}")).collect();
        println!("{} paths halted and carried ({})", self.kinds.values().sum::<u64>(), kinds.join(", "));
    }
}

/// A path halted somewhere and carried to another edition, seldom with something wrong.
fn drawn(draw: &mut Draw) -> Case {
    let c = halts::drawn(draw);
    let steps = paths::play(&c).steps;
    let first = Until { net: c.net, generator: c.state, instants: c.instants, limit: c.limit.min(steps + 100), named: draw.below(steps + 1) };
    let mut lent = Lent { table: vec![BEFORE; CELLS], words: [0; WORDS], times: [0.0; TIMES], told: [0; 5] };
    until(&first, &mut lent);
    let (mut new, mut pairs) = drawn_change(draw, &first.net, &lent);
    match draw.below(24) {
        0 => spoil(draw, &mut new),
        1 => new.places.push(Place { initial: 0, capacity: 0, label: Label::new(b"one-more") }),
        2 => pairs.extend_from_within(..pairs.len().min(2)),
        3 => pairs.truncate(2),
        _ => (),
    }
    // as many words as the program has room for
    pairs.truncate(128);
    Case { first, new, pairs, named: one_of(draw, &[0, 1, 2, 5, 20, u64::MAX]) }
}

/// Writes FILE.in and FILE.out: so many cases drawn from the seed.
pub fn batch(seed: u64, count: u64, file: &str) {
    let mut draw = Draw::new(seed);
    let mut batch = Batch::default();
    (0..count).for_each(|_| batch.add(&drawn(&mut draw)));
    batch.write(&format!("{file}.in"), &format!("{file}.out"));
}

/// Writes the recorded sample: document 01's net halted at each step, paths at edges over the same net, and some drawn ones, of few cells and steps.
pub fn record(folder: &str) {
    let mut draw = Draw::new(crate::sample::SEED);
    let mut batch = Batch::default();
    let same = |first: Until, named: u64| Case { pairs: Carry::on(&first.net, &first.instants, named).pairs, new: first.net.clone(), first, named };
    for (limit, named, more) in [(9, 0, 0), (9, 0, 3), (9, 1, 1), (9, 1, 2), (9, 2, 0), (9, 2, 1), (9, 3, 1), (2, 1, 1), (2, 2, 1), (0, 0, 1)] {
        batch.add(&same(Until { net: example(), generator: [1, 2, 3, 4], instants: vec![0.0, 1.0, 2.0], limit, named }, more));
    }
    for (k, c) in paths::edges().into_iter().enumerate() {
        let answer = paths::play(&c);
        let stopped = matches!(answer.end, End::Refused(14 | 15));
        if (k % 5 == 0 || stopped) && c.net.places.len() * c.instants.len() <= 60 && answer.steps <= 400 {
            let named = if stopped { k as u64 % 2 } else { draw.below(answer.steps + 1) };
            batch.add(&same(Until { net: c.net, generator: c.state, instants: c.instants, limit: c.limit, named }, u64::MAX));
        }
    }
    let mut left = 60;
    while left > 0 {
        let c = drawn(&mut draw);
        if c.first.net.places.len() * c.first.instants.len() <= 60 && c.first.limit <= 400 {
            batch.add(&c);
            left -= 1;
        }
    }
    batch.write(&format!("{folder}/stdin"), &format!("{folder}/stdout"));
}
