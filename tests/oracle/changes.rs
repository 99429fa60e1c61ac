//! The change to another net of document 02's order 8, by the library and by the second player: drawn editions of a net with renaming lists, states that no
//! path makes, and the same counts from two carried states.
use crate::carried::{carry, carry_by_library, until, Carry, Lent, Until, MOST_TAKEN, STEPS, TAKEN, TIMERS, TIMES, WHO, WORDS};
use crate::draw::Draw;
use crate::halts;
use crate::kept::shuffled;
use crate::nets::{Move, Net};
use crate::paths::{self, drawn_label, drawn_move, net, one_of, put, take};
use crate::player::{self, State, Timer, MOST_TIMERS, MOST_TOKENS};
use crate::report::{Cases, Report};

// ---- editions

/// Another edition of a net: transitions taken away, changed, added and reordered, and other initial counts, capacities and labels. Beside it, where each
/// old transition has gone.
fn edition(draw: &mut Draw, old: &Net) -> (Net, Vec<Option<usize>>) {
    let places = old.places.len();
    let mut new = old.clone();
    for (p, place) in new.places.iter_mut().enumerate() {
        place.initial = draw.below(9) as i64;
        place.capacity = if draw.below(6) == 0 { draw.below(20) as i64 } else { place.capacity };
        place.label = drawn_label(draw, p);
    }
    let mut parts: Vec<(Option<usize>, Move)> = old.moves.iter().cloned().enumerate().map(|(j, m)| (Some(j), m)).collect();
    let away = draw.below(4);
    parts.retain(|_| draw.below(8) >= away);
    for (_, m) in &mut parts {
        let other = drawn_move(draw, places, true, 4);
        match draw.below(10) {
            0 => m.rate = other.rate,
            1 if m.delay > 0.0 => m.delay = other.delay,
            // other arcs, and where there was a delay still takes
            2 => m.arcs = other.arcs,
            3 if player::takes(m).next().is_some() => m.delay = one_of(draw, &[0.0, 0.5, 1.0]),
            _ => (),
        }
    }
    for _ in 0..draw.below(5) {
        let timed = draw.below(2) == 0;
        parts.push((None, drawn_move(draw, places, timed, 6)));
    }
    if draw.below(8) > 0 {
        parts = shuffled(draw, parts);
    }
    parts.truncate(64);
    let mut gone = vec![None; old.moves.len()];
    parts.iter().enumerate().for_each(|(k, (from, _))| from.iter().for_each(|&j| gone[j] = Some(k)));
    new.moves = parts.into_iter().map(|(_, m)| m).collect();
    (new, gone)
}

/// A renaming list for the timers that run: a transition goes where the edition has put it, or to another with a delay; some pairs serve no timer.
fn renaming(draw: &mut Draw, new: &Net, gone: &[Option<usize>], running: &[u64]) -> Vec<u64> {
    let mut free: Vec<usize> = shuffled(draw, (0..new.moves.len()).collect());
    let mut pairs = vec![];
    for j in 0..gone.len() {
        let runs = running.contains(&(j as u64));
        let delayed = |k: usize| new.moves[k].delay > 0.0;
        let own = gone[j].filter(|k| free.contains(k) && (!runs || delayed(*k)) && draw.below(8) > 0);
        // seldom a timer is left without a number
        let to = if runs && draw.below(40) > 0 { own.or(free.iter().copied().find(|&k| delayed(k))) } else { own.filter(|_| !runs && draw.below(3) > 0) };
        if let Some(k) = to {
            free.retain(|&f| f != k);
            pairs.push([j as u64, k as u64]);
        }
    }
    let mut pairs = shuffled(draw, pairs).concat();
    // a last word without a partner
    if draw.below(4) == 0 {
        pairs.push(draw.any_length());
    }
    pairs
}

/// Another edition of a net for a path that was halted over it, and a renaming list.
pub fn drawn_change(draw: &mut Draw, old: &Net, halted: &Lent) -> (Net, Vec<u64>) {
    let (new, gone) = edition(draw, old);
    let pairs = renaming(draw, &new, &gone, &halted.words[WHO..][..halted.words[TIMERS] as usize]);
    (new, pairs)
}

/// What the changes were.
#[derive(Default)]
struct Seen {
    calls: u64,
    /// Of these: turned down by a test, by 14 or 15 while playing on, halted again, with timers that took another number and were then played on.
    tested: u64,
    stopped: u64,
    halted: u64,
    renamed: u64,
}

impl Seen {
    fn add(&mut self, call: &Carry, before: &Lent, after: &Lent) {
        let timers = before.words[TIMERS] as usize;
        let other = |i: usize| call.pairs.chunks_exact(2).any(|pair| pair[0] == before.words[WHO + i] && pair[0] != pair[1]);
        self.calls += 1;
        self.tested += (after.refused() && !matches!(after.told[0], 14 | 15)) as u64;
        self.stopped += matches!(after.told[0], 14 | 15) as u64;
        self.halted += after.halted() as u64;
        self.renamed += (!after.refused() && after.told[1] > before.words[STEPS] && (0..timers).any(other)) as u64;
    }

    fn print(&self) {
        let Seen { calls, tested, stopped, halted, renamed } = self;
        println!("  {calls} calls, {renamed} with renamed timers that were played on; {halted} halted again, {tested} turned down, {stopped} by 14 or 15");
    }
}

/// A call by the library and by the second player, every bit; what the second player leaves.
fn both(call: &Carry, before: &Lent, case: Cases, seen: &mut Seen) -> Lent {
    let (mut ours, mut after) = (before.clone(), before.clone());
    carry_by_library(call, &mut ours);
    carry(call, &mut after);
    case(ours == after, &|| format!("library and second player, {} timers carried, naming {}: {}", before.words[TIMERS], call.named, ours.against(&after)));
    seen.add(call, before, &after);
    after
}

const FEW: [u64; 8] = [0, 1, 1, 2, 5, 20, 60, u64::MAX];

/// A path halted somewhere and carried from edition to edition.
fn editions(draw: &mut Draw, case: Cases, seen: &mut Seen) {
    let c = halts::drawn(draw);
    let steps = paths::play(&c).steps;
    let mut lent = Lent::littered(draw, c.net.places.len() * c.instants.len() + 1);
    // a new edition may be quicker by far
    let limit = c.limit.min(steps + 1 + draw.below(300));
    until(&Until { net: c.net.clone(), generator: c.state, instants: c.instants.clone(), limit, named: draw.below(steps + 1) }, &mut lent);
    let mut old = c.net;
    for _ in 0..5 {
        // one that has ended may be carried too
        if lent.refused() || (!lent.halted() && draw.below(3) > 0) {
            break;
        }
        let (new, pairs) = drawn_change(draw, &old, &lent);
        let call = Carry { old, new: new.clone(), pairs, instants: c.instants.clone(), named: one_of(draw, &FEW) };
        litter(draw, &mut lent, new.places.len());
        lent = both(&call, &lent, case, seen);
        old = new;
    }
}

// ---- states that no path makes

/// Anything in the words and times that a state does not use.
fn litter(draw: &mut Draw, lent: &mut Lent, places: usize) {
    let timers = lent.words[TIMERS].min(MOST_TIMERS as u64) as usize;
    for k in (places..32).chain(42..48).chain(WHO + timers..TAKEN).chain(TAKEN + timers..WORDS) {
        lent.words[k] = draw.any_length();
    }
    lent.times[1 + timers..].iter_mut().for_each(|t| *t = draw.float());
}

/// A state that the tests pass, whether a path leaves such a one or not; its timers are of these old transitions.
fn any_state(draw: &mut Draw, places: usize, instants: &[f64], who: &[u64]) -> State {
    let last = *instants.last().unwrap();
    let clock = match draw.below(8) {
        0..=1 => one_of(draw, &[0.0, -0.0]),
        2 => one_of(draw, instants),
        3 => last * (1.0 + draw.unit()),
        _ => last * draw.unit(),
    };
    let many = match draw.below(10) {
        _ if who.is_empty() => 0,
        0 => 256,
        1 => 248 + draw.below(9),
        2..=3 => 0,
        _ => 1 + draw.below(9),
    };
    // many are equal, and whatever their number some end within the instants
    let mut at = clock;
    let timers = (0..many).map(|_| {
        at += one_of(draw, &[0.0, 0.0, -0.0, 0.25, last / many as f64]);
        Timer { at, who: one_of(draw, who), taken: one_of(draw, &[0, 1, 1, 2, 5, MOST_TAKEN - 1, MOST_TAKEN]) }
    });
    let timers: Vec<Timer> = timers.collect();
    let counts: Vec<i64> = (0..places).map(|_| if draw.below(60) == 0 { MOST_TOKENS - draw.below(3) as i64 } else { draw.below(6) as i64 }).collect();
    let tokens = counts.iter().sum::<i64>() as u64 + timers.iter().map(|x| x.taken).sum::<u64>();
    let limit = one_of(draw, &[1, 2, 40, 200, 1_000_000]);
    let steps = limit - draw.below(limit.min(80) + 1);
    let met = instants.iter().filter(|&&x| x <= clock).count();
    State {
        clock,
        counts,
        timers,
        generator: if draw.below(8) == 0 { [0; 4] } else { [draw.word(), draw.word(), draw.word(), draw.word()] },
        steps,
        limit,
        peak: one_of(draw, &[0, tokens / 2, tokens.saturating_sub(1), tokens, tokens + 1, u64::MAX]),
        rounded: one_of(draw, &[0, steps / 2, steps]),
        instants: instants.to_vec(),
        recorded: met + one_of(draw, &[0, 0, instants.len() - met, (instants.len() - met) / 2]),
    }
}

/// A table for it, with whole numbers where it has records and anything elsewhere.
fn any_table(draw: &mut Draw, s: &State, beyond: usize) -> Vec<f64> {
    let mut table: Vec<f64> = (0..s.cells() + beyond).map(|_| one_of(draw, &[0.5, -1.0, 7.0, f64::NAN, f64::INFINITY])).collect();
    for p in 0..s.counts.len() {
        for i in 0..s.recorded {
            table[p * s.instants.len() + i] = one_of(draw, &[0.0, -0.0, 1.0, 5.0, MOST_TOKENS as f64]);
        }
    }
    table
}

/// Old numbers for the delayed transitions of a net, each with one of its own, and the list that renames them.
fn old_numbers(draw: &mut Draw, old: &Net, new: &Net) -> Vec<[u64; 2]> {
    let olds: Vec<u64> = shuffled(draw, (0..old.moves.len() as u64).collect());
    let delayed = (0..new.moves.len()).filter(|&k| new.moves[k].delay > 0.0).map(|k| k as u64);
    olds.into_iter().zip(delayed).map(|(j, k)| [j, k]).collect()
}

/// A net that is accepted, with an edition of it as the old one.
fn two_nets(draw: &mut Draw) -> (Net, Net, Vec<f64>) {
    loop {
        let c = halts::drawn(draw);
        if player::path_fault(&c.net, &c.instants, c.limit, usize::MAX).is_none() {
            let old = edition(draw, &c.net).0;
            return (old, c.net, c.instants);
        }
    }
}

/// A call that is accepted, over a state of any kind.
pub fn any_call(draw: &mut Draw) -> (Carry, Lent) {
    let (old, new, instants) = two_nets(draw);
    let pairs = old_numbers(draw, &old, &new);
    let pairs = shuffled(draw, pairs);
    let who: Vec<u64> = pairs.iter().map(|pair| pair[0]).collect();
    let state = any_state(draw, old.places.len(), &instants, &who);
    let mut lent = Lent::littered(draw, 0);
    lent.table = any_table(draw, &state, 2);
    lent.put(&state);
    litter(draw, &mut lent, old.places.len());
    (Carry { old, new, pairs: pairs.concat(), instants, named: one_of(draw, &FEW) }, lent)
}

/// By pencil: four places, the last of which nothing fills; transition 0 takes a second for a token from place 0 to place 1, transition 1 puts five into
/// place 2 for one of place 3, and transition 2 is no timer.
fn by_pencil(case: Cases) {
    const ALL: u64 = MOST_TAKEN;
    let net = net(&[0; 4], vec![(0.0, 1.0, vec![take(0, 1), put(1, 1)]), (0.0, 1.0, vec![take(3, 1), put(2, 5)]), (1.0, 0.0, vec![take(3, 9)])]);
    let table = vec![7.0, 0.5, 0.5, 8.0, 0.5, 0.5, 9.0, 0.5, 0.5, -0.0, 0.5, 0.5, 0.25];
    let state = State { clock: 0.5, counts: vec![0; 4], timers: vec![], generator: [1, 2, 3, 4], steps: 3, limit: 9, peak: 0, rounded: 1, instants: vec![0.0, 1.0, 2.0], recorded: 1 };
    let timer = |at: f64, who: u64, taken: u64| Timer { at, who, taken };
    let mut row = |what: &str, named: u64, pairs: &[u64], edit: &dyn Fn(&mut State), told: [u64; 5], counts: [u64; 4], clock: f64| {
        let mut s = state.clone();
        edit(&mut s);
        let mut before = Lent { table: table.clone(), words: [0; WORDS], times: [0.0; TIMES], told: [0; 5] };
        (0..4).for_each(|p| (1..s.recorded).for_each(|i| before.table[3 * p + i] = 3.0));
        before.put(&s);
        let call = Carry { old: net.clone(), new: net.clone(), pairs: pairs.to_vec(), instants: s.instants, named };
        let after = both(&call, &before, case, &mut Seen::default());
        let left = after.words[..4] == counts && after.times[0].to_bits() == clock.to_bits();
        // records stand, and +0 is in every cell where 14 or 15 stops the path; what is not the table's stays
        let cells = (0..12).all(|k| match told[0] {
            14 | 15 => after.table[k].to_bits() == 0,
            0..=99 => after.table[k].to_bits() == before.table[k].to_bits(),
            _ => k % 3 >= s.recorded || after.table[k].to_bits() == before.table[k].to_bits(),
        });
        let stands = told[0] > 99 || Lent { told: before.told, table: before.table.clone(), ..after.clone() } == before;
        case(after.told == told && left && cells && stands && after.table[12] == 0.25, &|| format!("{what}: told {:?}, by pencil {told:?}; {}", after.told, after.against(&before)));
    };
    let same = &[0, 0, 1, 1][..];
    // the peak: a start is a moment, the change is none, and a timer's weight leaves with it
    row("two start", 1, same, &|s| s.counts[0] = 2, [103, 4, 2, 2, 1], [0, 1, 0, 0], 1.5);
    row("one ends", 1, same, &|s| s.timers = vec![timer(1.0, 0, ALL)], [103, 4, 2, 1, 1], [0, 1, 0, 0], 1.0);
    row("none yet", 0, same, &|s| s.timers = vec![timer(1.0, 0, ALL)], [103, 3, 1, 0, 1], [0; 4], 0.5);
    row("one of two ends", 1, same, &|s| s.timers = vec![timer(1.0, 0, ALL); 2], [103, 4, 2, ALL + 1, 1], [0, 1, 0, 0], 1.0);
    row("one starts, another ends", 1, same, &|s| (s.counts[0], s.timers) = (1, vec![timer(1.0, 1, ALL)]), [103, 4, 2, ALL + 1, 1], [0, 0, 5, 0], 1.0);
    row("nothing is left", 5, same, &|s| s.counts[1] = 4, [100, 4, 3, 0, 1], [0, 4, 0, 0], 0.5);
    row("a peak of its own", 1, same, &|s| (s.counts[0], s.peak) = (2, u64::MAX), [103, 4, 2, u64::MAX, 1], [0, 1, 0, 0], 1.5);
    // no step is left, or none is to do
    for named in [0, 5] {
        row("spent", named, same, &|s| s.steps = 9, [101, 9, 1, 0, 1], [0; 4], 0.5);
        row("at the last instant", named, same, &|s| (s.clock, s.recorded) = (2.0, 3), [102, 3, 3, 0, 1], [0; 4], 2.0);
        row("past it, and spent", named, same, &|s| (s.clock, s.recorded, s.steps) = (3.0, 3, 9), [102, 9, 3, 0, 1], [0; 4], 3.0);
    }
    // recorded beyond the clock; a completion at the clock; equal ones in the order of the list; their numbers crosswise
    row("recorded beyond", 1, same, &|s| (s.recorded, s.timers) = (3, vec![timer(1.0, 0, 1)]), [103, 4, 3, 1, 1], [0, 1, 0, 0], 1.0);
    row("recorded beyond, and spent", 9, same, &|s| (s.recorded, s.steps) = (2, 9), [101, 9, 2, 0, 1], [0; 4], 0.5);
    row("at the clock", 1, same, &|s| s.timers = vec![timer(0.5, 0, 1)], [103, 4, 1, 1, 1], [0, 1, 0, 0], 0.5);
    row("equal, 1 first", 1, same, &|s| s.timers = vec![timer(1.0, 1, 1), timer(1.0, 0, 1)], [103, 4, 2, 6, 1], [0, 0, 5, 0], 1.0);
    row("equal, 0 first", 1, same, &|s| s.timers = vec![timer(1.0, 0, 1), timer(1.0, 1, 1)], [103, 4, 2, 2, 1], [0, 1, 0, 0], 1.0);
    row("crosswise", 1, &[0, 1, 1, 0], &|s| s.timers = vec![timer(1.0, 0, 1)], [103, 4, 2, 5, 1], [0, 0, 5, 0], 1.0);
    row("from no timer", 1, &[2, 1], &|s| s.timers = vec![timer(1.0, 2, 1)], [103, 4, 2, 5, 1], [0, 0, 5, 0], 1.0);
    // -0 reads as 0
    row("clock -0", 0, same, &|s| s.clock = -0.0, [103, 3, 1, 0, 1], [0; 4], -0.0);
    row("a timer at -0", 1, same, &|s| (s.clock, s.timers) = (0.0, vec![timer(-0.0, 0, 1)]), [103, 4, 1, 1, 1], [0, 1, 0, 0], -0.0);
    // 22: unlisted, without delay, numbers that the old net lacks; 14 and 15
    let full = MOST_TOKENS;
    row("unlisted", 1, &[1, 1], &|s| s.timers = vec![timer(1.0, 0, 1)], [22, 0, 0, 0, 0], [0; 4], 0.5);
    row("to no timer", 1, &[0, 2], &|s| s.timers = vec![timer(1.0, 0, 1)], [22, 0, 0, 0, 0], [0; 4], 0.5);
    row("number 3", 0, same, &|s| s.timers = vec![timer(1.0, 3, 1)], [22, 0, 0, 0, 0], [0; 4], 0.5);
    row("number 2^64 - 1", 0, same, &|s| s.timers = vec![timer(1.0, u64::MAX, 1)], [22, 0, 0, 0, 0], [0; 4], 0.5);
    row("2^53 and one", 9, same, &|s| (s.counts[1], s.timers) = (full, vec![timer(1.0, 0, 1)]), [14, 0, 0, 0, 0], [0, full as u64, 0, 0], 0.5);
    row("2^53", 1, same, &|s| (s.counts[1], s.timers) = (full - 1, vec![timer(1.0, 0, 1)]), [103, 4, 2, full as u64, 1], [0, full as u64, 0, 0], 1.0);
    row("a 257th timer", 1, same, &|s| (s.counts[0], s.timers) = (1, vec![timer(1.0, 0, 1); 256]), [15, 0, 0, 0, 0], [1, 0, 0, 0], 0.5);
    row("a 256th timer", 1, same, &|s| (s.counts[0], s.timers) = (1, vec![timer(1.0, 0, 1); 255]), [103, 4, 2, 256, 1], [0, 1, 0, 0], 1.0);
    row("256 timers", 0, same, &|s| (s.counts[0], s.timers) = (1, vec![timer(1.0, 0, 1); 256]), [103, 3, 1, 0, 1], [1, 0, 0, 0], 0.5);
}

// ---- the same counts

/// Two carried states alike once renamed, but for instants and records: each instant of both lists is recorded in both with the same counts, or in neither.
/// How many instants both calls show anew.
fn same_counts(draw: &mut Draw, case: Cases) -> u64 {
    let (old, new, mut all) = two_nets(draw);
    let places = old.places.len();
    all.dedup();
    // the state, by its new numbers, and the counts that both have recorded
    let delayed: Vec<u64> = (0..new.moves.len()).filter(|&k| new.moves[k].delay > 0.0).map(|k| k as u64).take(old.moves.len()).collect();
    let state = any_state(draw, places, &all, &delayed);
    let recorded: Vec<f64> = (0..places * all.len()).map(|_| draw.below(50) as f64).collect();
    let mut one = |old: &Net| {
        let pairs = old_numbers(draw, old, &new);
        let mut of: Vec<usize> = (0..all.len()).flat_map(|i| vec![i; one_of(draw, &[0, 1, 1, 2])]).take(1024).collect();
        of.extend(if of.is_empty() { Some(all.len() - 1) } else { None });
        let instants: Vec<f64> = of.iter().map(|&i| all[i]).collect();
        let mut s = State { instants, recorded: of.iter().filter(|&&i| i < state.recorded).count(), ..state.clone() };
        for timer in &mut s.timers {
            timer.who = pairs.iter().find(|pair| pair[1] == timer.who).map_or(timer.who, |pair| pair[0]);
        }
        let mut lent = Lent::littered(draw, s.cells());
        for p in 0..places {
            (0..s.recorded).for_each(|k| lent.table[p * of.len() + k] = recorded[p * all.len() + of[k]]);
        }
        lent.put(&s);
        carry_by_library(&Carry { old: old.clone(), new: new.clone(), pairs: pairs.concat(), instants: s.instants, named: u64::MAX }, &mut lent);
        (of, lent, s.recorded)
    };
    let ((of_a, a, _), (of_b, b, before)) = (one(&old), one(&new));
    case([&a, &b].iter().all(|x| matches!(x.told[0], 14 | 15 | 100..)), &|| format!("told {:?} and {:?}", a.told, b.told));
    if a.refused() || b.refused() {
        return 0;
    }
    let mut anew = 0;
    for i in 0..of_a.len() {
        for j in (0..of_b.len()).filter(|&j| of_a[i] == of_b[j]) {
            anew += (j >= before) as u64;
            let same = (0..places).all(|p| a.table[p * of_a.len() + i] == b.table[p * of_b.len() + j]);
            case(same, &|| format!("instant {} has other counts from two states alike", all[of_a[i]]));
        }
    }
    anew
}

pub fn compare(report: &mut Report, seed: u64, count: u64) {
    let draw = &mut Draw::new(seed);
    report.compare("carried states by pencil", |case| by_pencil(case));
    let mut seen = Seen::default();
    report.compare("carried to drawn editions with renaming lists", |case| {
        for _ in 0..8 * count {
            editions(draw, case, &mut seen);
        }
        let Seen { calls, tested, stopped, halted, renamed } = seen;
        case(5 * renamed > calls && 4 * halted > calls && 100 * tested > calls && 50 * stopped > calls && 4 * tested < calls, &|| "too few of some kind".into());
    });
    seen.print();
    let mut seen = Seen::default();
    report.compare("carried from states of any kind", |case| {
        for _ in 0..10 * count {
            let (call, lent) = any_call(draw);
            both(&call, &lent, case, &mut seen);
        }
        let Seen { calls, tested, stopped, halted, renamed } = seen;
        case(tested == 0 && 5 * renamed > calls && 20 * halted > calls && 50 * stopped > calls, &|| "too few of some kind".into());
    });
    seen.print();
    let mut anew = 0;
    report.compare("the same counts from two carried states alike", |case| {
        for _ in 0..5 * count {
            anew += same_counts(draw, case);
        }
        case(anew > 5 * count, &|| format!("only {anew} instants shown anew by both"));
    });
}
