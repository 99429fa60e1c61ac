//! Halts of document 02's order 8: a path halted wherever it can be and carried on over the same net with the identity list is the unhalted path, and each
//! state between is the second player's. Every bit of every cell, word and time is compared.
use crate::carried::{carry, carry_by_library, until, until_by_library, Carry, Lent, Until, GENERATOR, HALTED, PEAK, RECORDED, STEPS, TAKEN, TIMERS, TIMES, WHO, WORDS};
use crate::draw::Draw;
use crate::kept;
use crate::nets::{example, Label, Move, Net, Place};
use crate::paths::{self, block, one_of, put, read, take, Case, CELLS};
use crate::player::{End, MOST_TOKENS};
use crate::rattle::{self, Fields};
use crate::report::{Cases, Report};

/// What the halted paths were.
#[derive(Default)]
struct Seen {
    paths: u64,
    halts: u64,
    /// Of these halts: with timers running, with equal completion times among them, with rounded steps behind them, with instants recorded and others not.
    timers: u64,
    equal: u64,
    rounded: u64,
    between: u64,
    /// Of these paths: answered by the Rust, turned down by 14 or 15 behind a halt, halted more than three times in a row.
    source: u64,
    refused: u64,
    several: u64,
}

impl Seen {
    fn add(&mut self, lent: &Lent, instants: usize) {
        let timers = lent.words[TIMERS] as usize;
        self.halts += 1;
        self.timers += (timers > 0) as u64;
        self.equal += lent.times[1..][..timers].windows(2).any(|w| w[0] == w[1]) as u64;
        self.rounded += (lent.told[4] > 0) as u64;
        self.between += (lent.words[RECORDED] > 0 && lent.words[RECORDED] < instants as u64) as u64;
    }
}

/// A case of any of the nets that the other comparisons draw, of some tens of steps in most.
pub fn drawn(draw: &mut Draw) -> Case {
    let net = match draw.below(10) {
        0..=1 => return paths::drawn(draw).0,
        2 => return paths::heavy(draw).0,
        3..=4 => kept::timed(draw),
        5 => kept::dense(draw),
        6 => kept::sparse(draw),
        7 => kept::rounding(draw),
        _ => filling(draw),
    };
    kept::drawn(draw, net, 60)
}

/// A net that many paths fill, up to a count above 2^53 or a 257th timer: beside its own places one has little room left, or waits in many timers.
fn filling(draw: &mut Draw) -> Net {
    let mut net = kept::timed(draw);
    let p = net.places.len();
    let (initial, m) = if draw.below(2) == 0 {
        (MOST_TOKENS - draw.below(8) as i64, Move { rate: (draw.unit() * 4.0).exp2(), delay: 0.0, arcs: vec![put(p, 1)] })
    } else {
        (256 - draw.below(20) as i64, Move { rate: 0.0, delay: 2f64.powi(20), arcs: vec![take(p, 1), put(p, 1)] })
    };
    net.places.push(Place { initial, capacity: 0, label: Label::numbered(p) });
    net.moves.truncate(63);
    net.moves.push(m);
    net
}

/// A path halted after every step, or where it has more than so many at regular steps.
fn every_halt(draw: &mut Draw, c: &Case, most: u64, case: Cases, seen: &mut Seen) {
    let unhalted = paths::play(c);
    let stride = 1 + unhalted.steps / most;
    let mut call = Until { net: c.net.clone(), generator: c.state, instants: c.instants.clone(), limit: c.limit, named: 0 };
    let mut on = Carry::on(&c.net, &c.instants, stride);
    let beyond = draw.below(3) as usize;
    let before = Lent::littered(draw, c.net.places.len() * c.instants.len() + beyond);

    // the second player: its end, and its states up to there, so many steps a call
    let mut end = before.clone();
    let generator = until(&Until { named: u64::MAX, ..call.clone() }, &mut end);
    let told = [unhalted.end.number(), unhalted.steps, unhalted.settled as u64, unhalted.peak, unhalted.rounded];
    case(end.told == told && generator == unhalted.state, &|| format!("the second player told {:?}, unhalted {told:?}", end.told));
    let mut states = vec![before.clone()];
    until(&call, &mut states[0]);
    while states.last().unwrap().halted() {
        let mut next = states.last().unwrap().clone();
        carry(&on, &mut next);
        states.push(next);
    }
    let last = states.len() - 1;
    if end.refused() {
        case(states[last].told == end.told, &|| format!("the second player by steps: {}", states[last].against(&end)));
        // a path call that is turned down leaves the state as lent
        states[last] = end.clone();
    } else {
        case(states[last] == end, &|| format!("the second player by steps: {}", states[last].against(&end)));
    }

    // the library: a number not below the limit is none
    let mut path = before.clone();
    let mut state = c.state;
    path.told = rattle::path(&Fields::of(&c.net), &mut state, &c.instants, c.limit, &mut path.table);
    (path.words, path.times) = (end.words, end.times);
    case(path == end && state == generator, &|| format!("path and the second player: {}", path.against(&end)));
    for named in [c.limit, c.limit.wrapping_add(1 + draw.below(9)).max(c.limit), u64::MAX] {
        let mut ours = before.clone();
        call.named = named;
        let left = until_by_library(&call, &mut ours);
        case(ours == path && left == state, &|| format!("naming {named} of {} and path: {}", c.limit, ours.against(&path)));
    }

    // halted, and carried on to the end
    for (k, expected) in states.iter().enumerate() {
        call.named = k as u64 * stride;
        let mut ours = before.clone();
        let left = until_by_library(&call, &mut ours);
        let generator = if expected.refused() { c.state } else { std::array::from_fn(|i| expected.words[GENERATOR + i]) };
        case(ours == *expected && left == generator, &|| format!("naming {}: {}", call.named, ours.against(expected)));
        if expected.halted() {
            seen.add(expected, c.instants.len());
            on.named = one_of(draw, &[c.limit - expected.words[STEPS], c.limit, u64::MAX]);
            let mut rest = expected.clone();
            carry_by_library(&on, &mut rest);
            let whole = as_carried(&end, expected);
            case(rest == whole, &|| format!("halted after {} and carried on: {}", call.named, rest.against(&whole)));
        }
    }

    // halted again and again
    let (mut at, mut halts) = (draw.below(3) as usize, 0);
    call.named = at as u64 * stride;
    let mut ours = before.clone();
    until_by_library(&call, &mut ours);
    while ours.halted() {
        let many = one_of(draw, &[0, 1, 1, 2, 3, 7, 20]);
        let carried = ours.clone();
        on.named = many as u64 * stride;
        carry_by_library(&on, &mut ours);
        (at, halts) = (last.min(at + many), halts + 1);
        let expected = as_carried(&states[at], &carried);
        case(ours == expected, &|| format!("halted {halts} times, then {many}: {}", ours.against(&expected)));
        // a difference may leave it halted for ever
        if ours != expected {
            break;
        }
    }
    seen.paths += 1;
    seen.several += (halts > 3) as u64;
    seen.refused += (matches!(unhalted.end, End::Refused(14..=15)) && last > 1) as u64;
    if let Some(agrees) = paths::source_agrees(c, &unhalted) {
        case(agrees, &|| "the source differs from the rules as worked here".into());
        seen.source += 1;
    }
}

/// What is left where a call comes to this end: if that is 14 or 15, the state as it was carried.
fn as_carried(end: &Lent, carried: &Lent) -> Lent {
    if end.refused() {
        Lent { words: carried.words, times: carried.times, ..end.clone() }
    } else {
        end.clone()
    }
}

/// Two halted calls of one net and generator, of which an unhalted one takes so many steps, with any instants, limits and numbers: an instant that both have
/// recorded shows the same counts. How many such instants there are.
fn both_recorded(draw: &mut Draw, c: &Case, steps: u64, case: Cases) -> u64 {
    let places = c.net.places.len();
    let one = |draw: &mut Draw| {
        // some of the instants, some of them twice, some between, and others behind the last
        let mut xs: Vec<f64> = c.instants.iter().flat_map(|&x| [x, x, x * draw.unit()].into_iter().take(draw.below(4) as usize).collect::<Vec<_>>()).collect();
        xs.push(c.instants.last().unwrap() * (0.5 + draw.unit()));
        xs.sort_by(|a, b| a.partial_cmp(b).unwrap());
        xs.truncate(1024);
        let mut lent = Lent::littered(draw, places * xs.len());
        let call = Until { net: c.net.clone(), generator: c.state, instants: xs, limit: 1 + steps + draw.below(9), named: draw.below(steps + 1) };
        until_by_library(&call, &mut lent);
        (call.instants, lent)
    };
    let ((xs, a), (ys, b)) = (one(draw), one(draw));
    if !a.halted() || !b.halted() {
        return 0;
    }
    let mut shared = 0;
    for i in 0..a.told[2] as usize {
        for j in (0..b.told[2] as usize).filter(|&j| xs[i] == ys[j]) {
            shared += 1;
            let same = (0..places).all(|p| a.table[p * xs.len() + i] == b.table[p * ys.len() + j]);
            case(same, &|| format!("instant {} has other counts in two halted calls", xs[i]));
        }
    }
    shared
}

/// Document 01's sample, by pencil: it halts after 0, 1 and 2 steps, and the third finds nothing left.
fn sample(case: Cases) {
    let mut call = Until { net: example(), generator: [1, 2, 3, 4], instants: vec![0.0, 1.0, 2.0], limit: 9, named: 0 };
    // told, counts, clock, timers
    let by_pencil = [([HALTED, 0, 1, 2, 0], [2, 0], 0.0, 0), ([HALTED, 1, 2, 2, 0], [0, 1], 1.0, 1), ([HALTED, 2, 2, 2, 0], [0, 2], 1.0, 0), ([100, 3, 3, 2, 0], [0, 2], 1.0, 0)];
    let shown = [[2.0, 0.0, 0.0], [0.0, 0.0, 2.0]].concat();
    for (named, &(told, counts, clock, timers)) in by_pencil.iter().enumerate() {
        call.named = named as u64;
        for by in [until, until_by_library] {
            let mut lent = Lent { table: vec![7.0; 7], words: [7; WORDS], times: [7.0; TIMES], told: [7; 5] };
            let generator = by(&call, &mut lent);
            let cells = (0..6).all(|k| lent.table[k] == if k % 3 < told[2] as usize { shown[k] } else { 7.0 }) && lent.table[6] == 7.0;
            let running = (0..256).all(|i| [lent.times[1 + i], lent.words[WHO + i] as f64, lent.words[TAKEN + i] as f64] == if i < timers { [1.0, 0.0, 1.0] } else { [0.0; 3] });
            let rest = lent.words[42..48].iter().chain(&lent.words[560..]).chain(&lent.words[2..32]).all(|&w| w == 0);
            let numbers = lent.words[32..42] == [1, 2, 3, 4, told[1], 9, told[3], 0, told[2].min(2), timers as u64];
            let agrees = lent.told == told && generator == [1, 2, 3, 4] && lent.words[..2] == counts && lent.times[0] == clock && cells && running && rest && numbers;
            case(agrees, &|| format!("naming {named}: told {:?}, words {:?}, table {:?}, by pencil {told:?}", lent.told, &lent.words[..42], lent.table));
        }
    }
    // from each halt on, with a number of the call's own: the steps told are those of the whole path
    for (from, many, told) in [(0, 1, [HALTED, 1, 2, 2, 0]), (1, 1, [HALTED, 2, 2, 2, 0]), (2, 1, [100, 3, 3, 2, 0]), (0, 0, [HALTED, 0, 1, 2, 0]), (1, 9, [100, 3, 3, 2, 0])] {
        call.named = from;
        for (by, on) in [(until as fn(&Until, &mut Lent) -> [u64; 4], carry as fn(&Carry, &mut Lent)), (until_by_library, carry_by_library)] {
            let mut lent = Lent { table: vec![7.0; 6], words: [7; WORDS], times: [7.0; TIMES], told: [7; 5] };
            by(&call, &mut lent);
            on(&Carry::on(&call.net, &call.instants, many), &mut lent);
            case(lent.told == told && lent.words[PEAK] == 2, &|| format!("halted after {from} and {many} more: told {:?}, by pencil {told:?}", lent.told));
        }
    }
}

/// The largest net: 32 places, 64 transitions of 16 arcs each; 16 of them are delayed and start 256 timers in the first step, of 16 delays.
pub fn largest() -> Net {
    let others = |j: usize| (0..4).flat_map(move |i| [read((j + 5 * i + 1) % 31, 1), block((j + 5 * i + 2) % 31, 1000)]);
    let race = |j: usize| (2f64.powi(-20), 0.0, (0..4).flat_map(|i| [take((j + 5 * i) % 31, 1), put((j + 5 * i + 3) % 31, 1)]).chain(others(j)).collect());
    let timed = |j: usize| (0.0, 2f64.powi(20) + j as f64, [take(31, 1)].into_iter().chain((0..7).map(|i| put((j + 3 * i) % 31, 1))).chain(others(j)).collect());
    let mut counts = [50; 32];
    counts[31] = 256;
    paths::net(&counts, (0..64).map(|j| if j % 4 == 3 { timed(j) } else { race(j) }).collect())
}

/// The largest net with 1,024 instants, halted here and there and carried on: 32,768 cells, of which about half are recorded.
fn large(draw: &mut Draw, case: Cases) {
    let net = largest();
    let mut call = Until { net: net.clone(), generator: [1, 2, 3, 4], instants: (0..1024).map(|i| i as f64 / 300.0).collect(), limit: 900, named: 0 };
    let mut lent = Lent::littered(draw, 32 * 1024);
    for named in [0, 1, 450] {
        let (mut ours, mut theirs) = (lent.clone(), lent.clone());
        call.named = named;
        let generators = (until_by_library(&call, &mut ours), until(&call, &mut theirs));
        case(ours == theirs && generators.0 == generators.1, &|| format!("naming {named}: {}", ours.against(&theirs)));
        if named == 450 {
            lent = theirs;
        }
    }
    let between = lent.words[RECORDED] > 256 && lent.words[RECORDED] < 768;
    case(lent.halted() && lent.words[TIMERS] == 256 && between, &|| format!("told {:?}, {} timers", lent.told, lent.words[TIMERS]));
    for named in [0, 1, 100, u64::MAX] {
        let on = Carry::on(&net, &call.instants, named);
        let (mut ours, mut theirs) = (lent.clone(), lent.clone());
        carry_by_library(&on, &mut ours);
        carry(&on, &mut theirs);
        case(ours == theirs, &|| format!("carried on, naming {named}: {}", ours.against(&theirs)));
    }
}

pub fn compare(report: &mut Report, seed: u64, count: u64) {
    let draw = &mut Draw::new(seed);
    report.compare("document 01's sample halted, by pencil", |case| sample(case));
    report.compare("the largest net halted and carried on", |case| large(draw, case));
    let mut seen = Seen::default();
    report.compare("halted at each step and carried on: paths at edges", |case| {
        for c in paths::edges().iter().filter(|c| c.net.places.len() * c.instants.len() <= CELLS) {
            every_halt(draw, c, 40, case, &mut seen);
        }
    });
    report.compare("halted at each step and carried on: drawn paths", |case| {
        for _ in 0..count {
            let c = drawn(draw);
            every_halt(draw, &c, 100, case, &mut seen);
        }
        let Seen { halts, timers, equal, rounded, between, source, several, refused, .. } = seen;
        let enough = 3 * timers > halts && 20 * equal > halts && 50 * rounded > halts && 4 * between > halts && 2 * several > count && 2 * source > count && 50 * refused > count;
        case(enough, &|| "too few of some kind".into());
    });
    let Seen { paths, halts, timers, equal, rounded, between, source, refused, several } = seen;
    println!("  {paths} paths, {several} of them halted more than three times in a row, {refused} turned down behind a halt, the Rust answers {source}");
    println!("  {halts} halts, {timers} with timers running, {equal} with equal ones, {rounded} behind rounded steps, {between} between two instants");
    let mut shared = 0;
    report.compare("instants that two halted calls have recorded", |case| {
        for _ in 0..2 * count {
            let c = drawn(draw);
            let answer = paths::play(&c);
            if !matches!(answer.end, End::Refused(_)) {
                shared += both_recorded(draw, &c, answer.steps, case);
            }
        }
        case(shared > count, &|| format!("only {shared} instants of both"));
    });
}
