//! The refusals of order 8's two calls, each alone and every two together: the one that is tested first is told, and nothing else is touched. The order is old
//! net, new net, 4, 12, 13, 11, 4 of a cell, 20, 21, 22; of a path call that names a number net, 12, 13, 11.
use crate::carried::{carry, carry_by_library, until, until_by_library, Carry, Lent, Until, HALTED, LIMIT, MOST_TAKEN, RECORDED, ROUNDED, STEPS, TAKEN, TIMERS, WHO};
use crate::changes::any_call;
use crate::draw::Draw;
use crate::halts::largest;
use crate::nets::{Label, Move, Net, Place};
use crate::paths::{one_of, put, read, take};
use crate::player::{MOST_STEPS, MOST_TIMERS, MOST_TOKENS};
use crate::report::{Cases, Report};

/// What can be wrong with a call.
#[derive(Clone, Copy, Debug)]
enum Fault {
    OldNet(u64),
    NewNet(u64),
    Count,
    Steps,
    Rounded,
    Clock,
    Time,
    Falling,
    Early,
    Weight,
    Timers,
    Instants,
    TooManyRecorded,
    NoneRecorded,
    OneUnrecorded,
    LimitZero,
    Limit,
    Short,
    NoTable,
    Cell,
    OnePlaceMore,
    OnePlace,
    OldRange,
    NewRange,
    OldTwice,
    NewTwice,
    PairTwice,
    Unlisted,
    NoDelay,
    Lacking,
}
use Fault::*;

/// The tests behind those of the nets, in their order, with their numbers.
const TESTS: [(u64, &[Fault]); 8] = [
    (4, &[Count, Steps, Rounded, Clock, Time, Falling, Early, Weight, Timers]),
    (12, &[Instants, TooManyRecorded, NoneRecorded, OneUnrecorded]),
    (13, &[LimitZero, Limit]),
    (11, &[Short, NoTable]),
    (4, &[Cell]),
    (20, &[OnePlaceMore, OnePlace]),
    (21, &[OldRange, NewRange, OldTwice, NewTwice, PairTwice]),
    (22, &[Unlisted, NoDelay, Lacking]),
];
const NETS: [u64; 8] = [2, 3, 4, 5, 6, 7, 17, 18];

/// A fault, which of the tests meets it, and by which number.
#[derive(Clone, Copy)]
struct Met {
    test: usize,
    number: u64,
    fault: Fault,
}

fn faults() -> Vec<Met> {
    let nets = NETS.iter().flat_map(|&number| [Met { test: 0, number, fault: OldNet(number) }, Met { test: 1, number, fault: NewNet(number) }]);
    let others = TESTS.iter().enumerate().flat_map(|(k, &(number, faults))| faults.iter().map(move |&fault| Met { test: 2 + k, number, fault }));
    nets.chain(others).collect()
}

/// A net that this number turns down.
fn spoil_net(draw: &mut Draw, net: &mut Net, number: u64) {
    let mut first = |delay: f64, arcs| {
        net.moves.insert(0, Move { rate: 1.0, delay, arcs });
        net.moves.truncate(64);
    };
    match number {
        2 if draw.below(2) == 0 => first(0.0, vec![put(0, 1); 17]),
        2 => net.places.clear(),
        3 => first(0.0, vec![read(32, 1)]),
        4 => first(one_of(draw, &[f64::NAN, -1.0, 2f64.powi(31)]), vec![take(0, 1)]),
        5 => first(0.0, vec![take(0, 1), take(0, 1)]),
        6 => first(1.0, vec![put(0, 1)]),
        7 => first(0.0, vec![take(0, 17)]),
        17 => net.places[0].label.length = 0,
        _ => {
            let label = net.places[0].label;
            net.places.truncate(1);
            net.places.push(Place { initial: 0, capacity: 0, label });
        }
    }
}

/// A list of instants that 12 turns down.
fn spoil_instants(draw: &mut Draw, xs: &mut Vec<f64>) {
    let (n, last) = (xs.len(), *xs.last().unwrap());
    let k = draw.below(n as u64) as usize;
    match draw.below(6) {
        0 => xs.clear(),
        1 => xs.resize(1025, last),
        2 => xs[k] = one_of(draw, &[f64::NAN, -1.0, -f64::from_bits(1), f64::NEG_INFINITY]),
        3 => xs[n - 1] = one_of(draw, &[f64::INFINITY, f64::from_bits(2f64.powi(31).to_bits() + 1)]),
        4 => xs.push(if last > 0.0 { last / 2.0 } else { -1.0 }),
        _ => *xs = vec![1.0, 2.0, 1.5, 3.0],
    }
}

/// The number of some timer, of two at least: what is added completes with the last, or at the clock.
fn some_timer(draw: &mut Draw, lent: &mut Lent) -> usize {
    let (before, timers) = (lent.words[TIMERS] as usize, lent.words[TIMERS].max(2) as usize);
    for i in before..timers {
        lent.times[1 + i] = lent.times[i];
        (lent.words[WHO + i], lent.words[TAKEN + i]) = (0, 1);
    }
    lent.words[TIMERS] = timers as u64;
    draw.below(timers as u64) as usize
}

/// A number of one side that the list leaves out, or where there is none one out of range.
fn unlisted(pairs: &[u64], side: usize, numbers: usize) -> u64 {
    (0..numbers as u64).find(|&j| pairs.chunks_exact(2).all(|pair| pair[side] != j)).unwrap_or(64)
}

fn next_above(x: f64) -> f64 {
    if x == 0.0 {
        f64::from_bits(1)
    } else {
        f64::from_bits(x.to_bits() + 1)
    }
}

/// Puts it in. Of several the one that is tested first has to come last.
fn spoil(draw: &mut Draw, fault: Fault, c: &mut Carry, lent: &mut Lent) {
    let (places, n) = (c.old.places.len(), c.instants.len());
    let (free_old, free_new) = (unlisted(&c.pairs, 0, c.old.moves.len()), unlisted(&c.pairs, 1, c.new.moves.len()));
    let listed = c.pairs.get(..2).map_or([64, 64], |pair| [pair[0], pair[1]]);
    match fault {
        OldNet(number) => spoil_net(draw, &mut c.old, number),
        NewNet(number) => spoil_net(draw, &mut c.new, number),
        Count => lent.words[draw.below(places as u64) as usize] = one_of(draw, &[MOST_TOKENS as u64 + 1, 1 << 63, u64::MAX]),
        Steps => lent.words[STEPS] = lent.words[LIMIT] + 1,
        Rounded => lent.words[ROUNDED] = lent.words[STEPS] + 1,
        Clock => lent.times[0] = one_of(draw, &[-1.0, -f64::from_bits(1), f64::NAN, f64::INFINITY, f64::NEG_INFINITY]),
        Time => lent.times[1 + some_timer(draw, lent)] = one_of(draw, &[-1.0, f64::NAN, f64::INFINITY, f64::NEG_INFINITY]),
        Falling => {
            let i = some_timer(draw, lent).max(1);
            let at = lent.times[i].max(lent.times[0]).max(1.0);
            (lent.times[i], lent.times[1 + i]) = (next_above(at), at);
        }
        Early => {
            some_timer(draw, lent);
            lent.times[0] = next_above(lent.times[1]);
        }
        Weight => lent.words[TAKEN + some_timer(draw, lent)] = one_of(draw, &[MOST_TAKEN + 1, u64::MAX]),
        Timers => lent.words[TIMERS] = one_of(draw, &[MOST_TIMERS as u64 + 1, 1 << 32, 1 << 56, u64::MAX]),
        Instants => spoil_instants(draw, &mut c.instants),
        TooManyRecorded => lent.words[RECORDED] = one_of(draw, &[n as u64 + 1, 1 << 32, u64::MAX]),
        NoneRecorded => (c.instants[0], lent.words[RECORDED]) = (one_of(draw, &[0.0, -0.0]), 0),
        // the clock at the last instant, which is not recorded
        OneUnrecorded => {
            let at = c.instants[n - 1];
            (lent.times[0], lent.words[TIMERS], lent.words[RECORDED]) = (at, 0, c.instants.iter().filter(|&&x| x < at).count() as u64);
        }
        LimitZero => (lent.words[LIMIT], lent.words[STEPS], lent.words[ROUNDED]) = (0, 0, 0),
        Limit => lent.words[LIMIT] = one_of(draw, &[MOST_STEPS + 1, 1 << 32, u64::MAX - 1]),
        Short => lent.table.truncate(places * n - 1),
        NoTable => lent.table.clear(),
        Cell => {
            if lent.words[RECORDED] == 0 {
                lent.words[RECORDED] = 1;
                (0..places).for_each(|p| lent.table[p * n] = 0.0);
            }
            let k = draw.below(places as u64) as usize * n + draw.below(lent.words[RECORDED]) as usize;
            let (tiny, above) = (f64::from_bits(1), next_above(MOST_TOKENS as f64));
            lent.table[k] = one_of(draw, &[0.5, -1.0, -tiny, tiny, above, 2f64.powi(64), 1e300, f64::NAN, f64::INFINITY, f64::NEG_INFINITY]);
        }
        OnePlaceMore if c.new.places.len() < 32 => c.new.places.push(Place { initial: 0, capacity: 0, label: Label::new(b"one-more") }),
        OnePlaceMore | OnePlace => {
            let one = if places == 1 { 2 } else { 1 };
            c.new = Net { places: (0..one).map(|p| Place { initial: 0, capacity: 0, label: Label::numbered(p) }).collect(), moves: vec![] };
        }
        OldRange => c.pairs.extend([one_of(draw, &[c.old.moves.len() as u64, 64, u64::MAX]), free_new]),
        NewRange => c.pairs.extend([free_old, one_of(draw, &[c.new.moves.len() as u64, 64, u64::MAX])]),
        OldTwice => c.pairs.extend([listed[0], free_new]),
        NewTwice => c.pairs.splice(..0, [free_old, listed[1]]).for_each(drop),
        PairTwice => c.pairs.extend(listed),
        Unlisted => {
            let who = lent.words[WHO + some_timer(draw, lent)];
            c.pairs = c.pairs.chunks_exact(2).filter(|pair| pair[0] != who).flatten().copied().collect();
        }
        NoDelay => {
            let who = lent.words[WHO + some_timer(draw, lent)];
            if let Some(pair) = c.pairs.chunks_exact(2).find(|pair| pair[0] == who) {
                c.new.moves[pair[1] as usize].delay = one_of(draw, &[0.0, -0.0]);
            }
        }
        Lacking => lent.words[WHO + some_timer(draw, lent)] = one_of(draw, &[c.old.moves.len() as u64, 64, 1 << 32, u64::MAX]),
    }
}

/// A call that is accepted gets these faults, of which the first is met first.
fn refused(draw: &mut Draw, base: &(Carry, Lent), faults: &[Met], case: Cases) {
    let (mut c, mut before) = base.clone();
    faults.iter().rev().for_each(|met| spoil(draw, met.fault, &mut c, &mut before));
    let (mut ours, mut theirs) = (before.clone(), before.clone());
    carry_by_library(&c, &mut ours);
    carry(&c, &mut theirs);
    let untouched = Lent { told: [faults[0].number, 0, 0, 0, 0], ..before };
    let names = || faults.iter().map(|met| met.fault).collect::<Vec<_>>();
    case(theirs == untouched, &|| format!("{:?}, the second player: {}", names(), theirs.against(&untouched)));
    case(ours == untouched, &|| format!("{:?}: {}", names(), ours.against(&untouched)));
}

/// A path call that names a number: faults of the net, of its instants, of its limit and of its table, by the places of their tests.
fn until_refused(draw: &mut Draw, base: &(Carry, Lent), faults: [bool; 4], case: Cases) {
    let (c, mut before) = base.clone();
    let mut call = Until { net: c.new, generator: [draw.word(), 2, 3, 4], instants: c.instants, limit: 1 + draw.below(MOST_STEPS), named: draw.any_length() };
    let number = one_of(draw, &NETS);
    if faults[3] {
        before.table.truncate(draw.below((call.net.places.len() * call.instants.len()) as u64) as usize);
    }
    if faults[2] {
        call.limit = one_of(draw, &[0, MOST_STEPS + 1, u64::MAX]);
    }
    if faults[1] {
        spoil_instants(draw, &mut call.instants);
    }
    if faults[0] {
        spoil_net(draw, &mut call.net, number);
    }
    let (mut ours, mut theirs) = (before.clone(), before.clone());
    let generators = [until_by_library(&call, &mut ours), until(&call, &mut theirs)];
    let told = [number, 12, 13, 11].into_iter().zip(faults).find(|f| f.1).unwrap().0;
    let untouched = Lent { told: [told, 0, 0, 0, 0], ..before };
    let agrees = ours == untouched && theirs == untouched && generators == [call.generator; 2];
    case(agrees, &|| format!("{faults:?}: {}; the second player: {}", ours.against(&untouched), theirs.against(&untouched)));
}

/// Long lists: 64 pairs are as many as two nets allow, whatever comes behind them.
fn long_lists(draw: &mut Draw, case: Cases) {
    let net = largest();
    let mut on = Carry::on(&net, &[0.0, 1e9], 3);
    let mut before = Lent::littered(draw, 64);
    until(&Until { net, generator: [1, 2, 3, 4], instants: on.instants.clone(), limit: 9, named: 1 }, &mut before);
    let whole = on.pairs.clone();
    let behind: [&[u64]; 8] = [&[], &[7], &[0, 0], &[63, 64], &[64, 63], &[64, 64, 9], &[u64::MAX, u64::MAX], &whole.repeat(40)];
    for more in behind {
        on.pairs = [&whole[..], more].concat();
        let (mut ours, mut theirs) = (before.clone(), before.clone());
        carry_by_library(&on, &mut ours);
        carry(&on, &mut theirs);
        let told = if more.len() < 2 { HALTED } else { 21 };
        case(ours == theirs && theirs.told[0] == told, &|| format!("{} words behind 64 pairs: {}", more.len(), ours.against(&theirs)));
    }
}

pub fn compare(report: &mut Report, seed: u64, count: u64) {
    let draw = &mut Draw::new(seed);
    let all = faults();
    let mut bases: Vec<(Carry, Lent)> = (0..count / 2 + 10).map(|_| any_call(draw)).collect();
    // each is accepted as it is, but for what playing on may find
    report.compare("calls that are refused, before they are spoilt", |case| {
        for (c, lent) in &bases {
            let (mut ours, mut theirs) = (lent.clone(), lent.clone());
            carry_by_library(c, &mut ours);
            carry(c, &mut theirs);
            case(ours == theirs && matches!(ours.told[0], 14 | 15 | 100..), &|| ours.against(&theirs));
        }
    });
    report.compare("each refusal of a carrying call alone", |case| {
        for base in &bases {
            all.iter().for_each(|&met| refused(draw, base, &[met], case));
        }
    });
    bases.truncate((count / 20 + 1) as usize);
    report.compare("every two refusals of a carrying call", |case| {
        for base in &bases {
            for &a in &all {
                all.iter().filter(|b| a.test < b.test).for_each(|&b| refused(draw, base, &[a, b], case));
            }
        }
    });
    report.compare("long renaming lists", |case| long_lists(draw, case));
    report.compare("refusals of a path call that names a number", |case| {
        for base in &bases {
            (1..16).for_each(|k| until_refused(draw, base, std::array::from_fn(|i| k >> i & 1 == 1), case));
        }
    });
}
