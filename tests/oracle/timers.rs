//! The timer list that turns, against a plain list written from document 01: a new timer goes in front of the first one that completes later, and the first
//! one leaves. After every call the list is read in each of the three ways, and the slots are looked at.
use crate::draw::Draw;
use crate::rattle::{Ring, Timer, TimerSlots};
use crate::report::{same, Report};

const SLOTS: usize = 256;
const IDLE: Timer = Timer { at: f64::INFINITY, who: 0, taken: 0 };

fn alike(a: &Timer, b: &Timer) -> bool {
    same(a.at, b.at) && a.who == b.who && a.taken == b.taken
}

fn all_alike(a: &[Timer], b: &[Timer]) -> bool {
    a.len() == b.len() && a.iter().zip(b).all(|(a, b)| alike(a, b))
}

/// In front of the first one that completes later.
fn from_front(list: &[Timer], at: f64) -> usize {
    list.iter().position(|x| at < x.at).unwrap_or(list.len())
}

/// Behind the last one that does not complete later.
fn from_end(list: &[Timer], at: f64) -> usize {
    list.iter().rposition(|x| !(at < x.at)).map_or(0, |i| i + 1)
}

/// Numbers that do not fall.
fn rising(list: &[Timer]) -> bool {
    list.iter().all(|x| !x.at.is_nan()) && list.windows(2).all(|w| w[0].at <= w[1].at)
}

/// The list that a ring is, read slot by slot.
fn list_of(slots: &TimerSlots, ring: Ring) -> Vec<Timer> {
    (0..ring.len.min(SLOTS)).map(|i| slots.held((ring.start % SLOTS + i) % SLOTS)).collect()
}

/// The ring's list by each of the proved ways to read it.
fn reads_as(slots: &TimerSlots, ring: Ring, list: &[Timer]) -> bool {
    let queue = slots.hand_out(ring);
    let beyond = (list.len()..SLOTS).all(|k| queue.ats[k].to_bits() == 0 && queue.whos[k] == 0 && queue.takens[k] == 0);
    let handed = (0..queue.len.min(SLOTS)).map(|k| queue.timer(k)).collect::<Vec<_>>();
    let each = [0, list.len() / 2, list.len().wrapping_sub(1), list.len(), SLOTS, usize::MAX];
    queue.len == list.len()
        && beyond
        && all_alike(&handed, list)
        && all_alike(&list_of(slots, ring), list)
        && alike(&slots.first(ring), list.first().unwrap_or(&IDLE))
        && each.iter().all(|&i| alike(&slots.timer_at(ring, i), list.get(i).unwrap_or(&IDLE)))
}

/// The slots that are not the list's, each as it was.
fn beyond_stand(before: &TimerSlots, after: &TimerSlots, start: usize, n: usize) -> bool {
    (n..SLOTS).map(|i| (start % SLOTS + i) % SLOTS).all(|k| alike(&before.held(k), &after.held(k)))
}

/// One insertion: what it says, the list, and where it is turned down the slots and the ring.
fn insert(slots: &mut TimerSlots, ring: &mut Ring, list: &mut Vec<Timer>, room: usize, x: Timer) -> bool {
    let (slots_before, ring_before) = (slots.clone(), *ring);
    let free = list.len() < room.min(SLOTS);
    let taken = slots.insert(ring, room, x);
    if !free {
        return !taken && *ring == ring_before && slots.alike(&slots_before);
    }
    // the plain list's place; only a list out of order that is said to be in order may have another
    let (plain, found) = (from_front(list, x.at), from_end(list, x.at));
    let one_place = plain == found || !rising(list);
    list.insert(if ring_before.ordered == 1 { found } else { plain }, x);
    let ordered = if x.at.is_nan() { 0 } else { ring_before.ordered };
    let stands = beyond_stand(&slots_before, slots, ring.start, list.len());
    taken && one_place && ring.start == ring_before.start && ring.ordered == ordered && stands && all_alike(&list_of(slots, *ring), list)
}

/// One removal: the list, and every other entry in the slot where it was. It is not lent the slots.
fn remove(slots: &TimerSlots, ring: &mut Ring, list: &mut Vec<Timer>) -> bool {
    let before = *ring;
    slots.remove(ring);
    if list.is_empty() {
        return *ring == before;
    }
    list.remove(0);
    ring.start == (before.start % SLOTS + 1) % SLOTS && ring.ordered == before.ordered && all_alike(&list_of(slots, *ring), list)
}

/// The delays of a run: one, eight, many that are equal, any; and now and then no number or an infinite one.
fn delay(draw: &mut Draw, kind: u64) -> f64 {
    match kind {
        0 => 1.0,
        1 => 0.5 * (1 + draw.below(8)) as f64,
        2 => draw.below(2) as f64,
        3 => draw.unit(),
        _ => match draw.below(200) {
            0 => f64::NAN,
            1 => f64::INFINITY,
            _ => draw.unit(),
        },
    }
}

/// Calls of insert and remove, each handed what the last left, over slots with anything in them, from an empty list whose start is anywhere. How often the
/// start came round, and how many insertions were turned down.
fn long_run(draw: &mut Draw, kind: u64, most: usize, calls: u64, case: &mut dyn FnMut(bool, &dyn Fn() -> String)) -> [u64; 2] {
    let mut slots = TimerSlots::drawn(draw);
    let mut ring = Ring { start: draw.any_length() as usize, len: 0, ordered: if draw.below(4) == 0 { draw.below(3) } else { 1 } };
    let (mut list, mut clock, mut seen) = (vec![], 0.0, [0; 2]);
    for k in 0..calls {
        // so many run for a while, then fewer, then so many again
        let wanted = if k / 1000 % 2 == 0 { most } else { most / 4 };
        let agrees = if list.len() < wanted || draw.below(16) == 0 {
            let x = Timer { at: clock + delay(draw, kind), who: draw.any_length() as usize, taken: draw.any_length() };
            let room = if draw.below(32) == 0 { draw.below(300) as usize } else { usize::MAX };
            seen[1] += u64::from(list.len() >= room.min(SLOTS));
            insert(&mut slots, &mut ring, &mut list, room, x)
        } else {
            clock = list.first().map_or(clock, |x: &Timer| if x.at.is_finite() { x.at } else { clock });
            let before = ring.start % SLOTS;
            let agrees = remove(&slots, &mut ring, &mut list);
            seen[0] += u64::from(ring.start % SLOTS < before);
            agrees
        };
        let read = k % 16 != 0 || reads_as(&slots, ring, &list);
        case(agrees && read, &|| format!("delays {kind}, call {k}: {} timers, ring {ring:?}", list.len()));
    }
    seen
}

/// One call on slots, a ring and a timer of any kind, a list out of order that is said to be in order among them.
fn any_ring(draw: &mut Draw, case: &mut dyn FnMut(bool, &dyn Fn() -> String)) {
    let mut slots = TimerSlots::drawn(draw);
    let len = match draw.below(4) {
        0 => draw.any_length() as usize,
        1 => 254 + draw.below(4) as usize,
        _ => draw.below(40) as usize,
    };
    let ring = Ring { start: draw.any_length() as usize, len, ordered: draw.below(3) };
    let list = list_of(&slots, ring);
    let reads = reads_as(&slots, ring, &list);
    let x = Timer { at: if draw.below(8) == 0 { f64::NAN } else { draw.below(20) as f64 }, who: draw.word() as usize, taken: draw.word() };
    let room = if draw.below(2) == 0 { draw.any_length() as usize } else { draw.below(300) as usize };
    let removes = remove(&slots, &mut ring.clone(), &mut list.clone());
    let inserts = insert(&mut slots, &mut ring.clone(), &mut list.clone(), room, x);
    case(reads && removes && inserts, &|| format!("{ring:?}, room {room}, {x:?}: read {reads}, removed {removes}, inserted {inserts}"));
}

/// A list handed in and out again, in order or not.
fn handed(draw: &mut Draw, case: &mut dyn FnMut(bool, &dyn Fn() -> String)) {
    let before = TimerSlots::drawn(draw);
    let mut queue = TimerSlots::drawn(draw).hand_out(Ring { start: 0, len: SLOTS, ordered: 0 });
    queue.len = if draw.below(4) == 0 { draw.any_length() as usize } else { draw.below(260) as usize };
    let n = queue.len.min(SLOTS);
    match draw.below(4) {
        0 => {}
        1 if n > 0 => {
            queue.ats[..n].sort_by(f64::total_cmp);
            queue.ats[draw.below(n as u64) as usize] = f64::NAN;
        }
        _ => {
            queue.ats.iter_mut().for_each(|at| if at.is_nan() { *at = 3.0 });
            queue.ats[..n].sort_by(|a, b| a.partial_cmp(b).unwrap());
        }
    }
    let list: Vec<Timer> = (0..n).map(|k| queue.timer(k)).collect();
    let mut slots = before.clone();
    let ring = slots.hand_in(&queue);
    let agrees = ring.start == 0 && ring.len == n && ring.ordered == u64::from(rising(&list)) && beyond_stand(&before, &slots, 0, n) && reads_as(&slots, ring, &list);
    case(agrees, &|| format!("a queue of {} handed in as {ring:?}, in order {}", queue.len, rising(&list)));
}

pub fn compare(report: &mut Report, seed: u64, count: u64) {
    let draw = &mut Draw::new(seed);
    for (kind, name) in ["one delay", "eight delays", "equal times", "any delays", "no numbers among them"].iter().enumerate() {
        let mut seen = [0; 2];
        report.compare(&format!("the timer list, {name}"), |case| {
            for most in [2, 32, 200, 256] {
                let [round, refused] = long_run(draw, kind as u64, most, 20 * count, case);
                seen = [seen[0] + round, seen[1] + refused];
            }
            // a run that never wraps, or never fills the list, would show little
            case(seen[0] > count / 20 && seen[1] > count / 20, &|| format!("the start came round {} times, and {} were turned down", seen[0], seen[1]));
        });
        println!("  the start came round {} times, and {} insertions were turned down", seen[0], seen[1]);
    }
    report.compare("timer lists of any kind", |case| (0..count).for_each(|_| any_ring(draw, case)));
    report.compare("timer lists handed in and out", |case| (0..count).for_each(|_| handed(draw, case)));
}
