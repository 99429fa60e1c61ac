//! The proved functions, as crates/c_face exports them. A slice is a pointer and a length.
use crate::draw::Draw;
use crate::nets::Net;

mod c {
    extern "C" {
        pub fn cild_wrapping_mul(a: u64, b: u64) -> u64;
        pub fn cild_rotate_left(x: u64, k: u32) -> u64;
        pub fn cild_splitmix64(seed: u64, state: *mut [u64; 4]);
        pub fn cild_next_u64(state: *mut [u64; 4]) -> u64;
        pub fn cild_uniform(state: *mut [u64; 4]) -> f64;
        pub fn cild_step_back(state: *mut [u64; 4]);
        pub fn cild_frexp(x: f64, exp: *mut i32) -> f64;
        pub fn cild_plog(x: f64) -> f64;
        pub fn cild_plog_of_rest(x: u64) -> f64;
        pub fn cild_combinations(m: i64, w: i64, value: *mut f64, exact: *mut u64) -> bool;
        pub fn cild_combinations_real(x: f64, w: i64, value: *mut f64) -> bool;
        pub fn cild_sqrt(x: f64) -> f64;
        pub fn cild_products(xs: *mut u64, len: usize, by: u64);
        pub fn cild_rotations(xs: *mut u64, len: usize, k: u32);
        pub fn cild_plogs(xs: *mut f64, len: usize);
        pub fn cild_roots(xs: *mut f64, len: usize);
        pub fn cild_outputs(state: *mut [u64; 4], out: *mut u64, len: usize);
        pub fn cild_uniforms(state: *mut [u64; 4], out: *mut f64, len: usize);
        pub fn cild_read(text: *const u8, len: usize, told: *mut [u64; 2]);
        pub fn cild_normals(state: *mut [u64; 4], spare: *mut f64, waiting: *mut bool, out: *mut f64, len: usize) -> usize;
        pub fn cild_timer_insert(ats: *mut [f64; 256], owners: *mut [u64; 512], start: *mut usize, len: *mut usize, ordered: *mut u64, room: usize, at: f64, who: usize, taken: u64) -> bool;
        pub fn cild_timer_remove(start: *mut usize, len: *mut usize, ordered: *mut u64);
        pub fn cild_timer_first(ats: *const [f64; 256], owners: *const [u64; 512], start: usize, len: usize, ordered: u64, who: *mut usize, taken: *mut u64) -> f64;
        pub fn cild_timer_at(ats: *const [f64; 256], owners: *const [u64; 512], start: usize, len: usize, ordered: u64, i: usize, who: *mut usize, taken: *mut u64) -> f64;
        pub fn cild_timers_in(ats: *mut [f64; 256], owners: *mut [u64; 512], start: *mut usize, len: *mut usize, ordered: *mut u64, times: *const [f64; 256], whos: *const [usize; 256], takens: *const [u64; 256], many: usize);
        pub fn cild_timers_out(ats: *const [f64; 256], owners: *const [u64; 512], start: usize, len: usize, ordered: u64, times: *mut [f64; 256], whos: *mut [usize; 256], takens: *mut [u64; 256]) -> usize;
        pub fn cild_soak(seed: u64, places: u64, transitions: u64, out: *mut u8, len: usize, told: *mut [u64; 2]);
    }

    /// Declares functions that are lent the twelve fields of a net in front of their other arguments.
    macro_rules! lent {
        ($(fn $name:ident($($argument:ident: $is:ty),*) $(-> $told:ty)?;)*) => {
            extern "C" {
                $(pub fn $name(
                    places: usize,
                    transitions: usize,
                    initial: *const [u64; 32],
                    capacity: *const [u64; 32],
                    label: *const [u8; 512],
                    lengths: *const [usize; 32],
                    rate: *const [f64; 64],
                    delay: *const [f64; 64],
                    arcs: *const [usize; 64],
                    kind: *const [u64; 1024],
                    place: *const [usize; 1024],
                    weight: *const [u64; 1024],
                    $($argument: $is),*
                ) $(-> $told)?;)*
            }
        };
    }
    lent! {
        fn cild_path(state: *mut [u64; 4], instants: *const f64, n: usize, limit: u64, table: *mut f64, cells: usize, told: *mut [u64; 5]);
        fn cild_ensemble(samples: u64, realizations: u64, seed: u64, horizon: f64, mean: *mut f64, means: usize, deviation: *mut f64, deviations: usize, path: *mut f64, paths: usize, told: *mut [u64; 3]);
        fn cild_diffusion(samples: u64, realizations: u64, seed: u64, horizon: f64, mean: *mut f64, means: usize, deviation: *mut f64, deviations: usize, path: *mut f64, paths: usize, told: *mut [u64; 7]);
        fn cild_reason(out: *mut u8, bytes: usize, told: *mut [u64; 2]);
        fn cild_game(sides: *const u64, n: usize, named: u64, count: u64, turns: u64, told: *mut [u64; 3]);
        fn cild_balance(weights: *const u64, n: usize, told: *mut [u64; 2]);
        fn cild_index(masks: *mut [u64; 32]) -> u64;
        fn cild_path_until(state: *mut [u64; 4], instants: *const f64, n: usize, limit: u64, named: u64, table: *mut f64, cells: usize, halted: *mut [u64; 816], times: *mut [f64; 257], told: *mut [u64; 5]);
        fn cild_carry(
            new_places: usize, new_transitions: usize, new_initial: *const [u64; 32], new_capacity: *const [u64; 32], new_label: *const [u8; 512], new_lengths: *const [usize; 32],
            new_rate: *const [f64; 64], new_delay: *const [f64; 64], new_arcs: *const [usize; 64], new_kind: *const [u64; 1024], new_place: *const [usize; 1024], new_weight: *const [u64; 1024],
            pairs: *const u64, words: usize, instants: *const f64, n: usize, named: u64, table: *mut f64, cells: usize, halted: *mut [u64; 816], times: *mut [f64; 257], told: *mut [u64; 5]
        );
    }
}

// The exported functions have no precondition, and the references are valid for each call.

pub fn wrapping_mul(a: u64, b: u64) -> u64 {
    unsafe { c::cild_wrapping_mul(a, b) }
}

pub fn rotate_left(x: u64, k: u32) -> u64 {
    unsafe { c::cild_rotate_left(x, k) }
}

pub fn splitmix64(seed: u64) -> [u64; 4] {
    let mut state = [0; 4];
    unsafe { c::cild_splitmix64(seed, &mut state) };
    state
}

pub fn next_u64(state: &mut [u64; 4]) -> u64 {
    unsafe { c::cild_next_u64(state) }
}

pub fn uniform(state: &mut [u64; 4]) -> f64 {
    unsafe { c::cild_uniform(state) }
}

pub fn step_back(state: &mut [u64; 4]) {
    unsafe { c::cild_step_back(state) }
}

pub fn frexp(x: f64) -> (f64, i32) {
    let mut exp = 0;
    let frac = unsafe { c::cild_frexp(x, &mut exp) };
    (frac, exp)
}

pub fn plog(x: f64) -> f64 {
    unsafe { c::cild_plog(x) }
}

pub fn plog_of_rest(x: u64) -> f64 {
    unsafe { c::cild_plog_of_rest(x) }
}

/// The float, and whether it is exact; none where it is refused.
pub fn combinations(m: i64, w: i64) -> Option<(f64, bool)> {
    let (mut value, mut exact) = (0.0, 0);
    unsafe { c::cild_combinations(m, w, &mut value, &mut exact) }.then_some((value, exact == 1))
}

/// None where it is refused.
pub fn combinations_real(x: f64, w: i64) -> Option<f64> {
    let mut value = 0.0;
    unsafe { c::cild_combinations_real(x, w, &mut value) }.then_some(value)
}

pub fn sqrt(x: f64) -> f64 {
    unsafe { c::cild_sqrt(x) }
}

pub fn products(xs: &mut [u64], by: u64) {
    unsafe { c::cild_products(xs.as_mut_ptr(), xs.len(), by) }
}

pub fn rotations(xs: &mut [u64], k: u32) {
    unsafe { c::cild_rotations(xs.as_mut_ptr(), xs.len(), k) }
}

pub fn plogs(xs: &mut [f64]) {
    unsafe { c::cild_plogs(xs.as_mut_ptr(), xs.len()) }
}

pub fn roots(xs: &mut [f64]) {
    unsafe { c::cild_roots(xs.as_mut_ptr(), xs.len()) }
}

pub fn outputs(state: &mut [u64; 4], out: &mut [u64]) {
    unsafe { c::cild_outputs(state, out.as_mut_ptr(), out.len()) }
}

pub fn uniforms(state: &mut [u64; 4], out: &mut [f64]) {
    unsafe { c::cild_uniforms(state, out.as_mut_ptr(), out.len()) }
}

/// A net as the fields of the proved record; what has no room is left out, and still counted.
pub struct Fields {
    places: usize,
    transitions: usize,
    initial: [u64; 32],
    capacity: [u64; 32],
    label: [u8; 512],
    lengths: [usize; 32],
    rate: [f64; 64],
    delay: [f64; 64],
    arcs: [usize; 64],
    kind: [u64; 1024],
    place: [usize; 1024],
    weight: [u64; 1024],
}

impl Fields {
    pub fn of(net: &Net) -> Fields {
        let mut f = Fields {
            places: net.places.len(),
            transitions: net.moves.len(),
            initial: [0; 32],
            capacity: [0; 32],
            label: [0; 512],
            lengths: [0; 32],
            rate: [0.0; 64],
            delay: [0.0; 64],
            arcs: [0; 64],
            kind: [0; 1024],
            place: [0; 1024],
            weight: [0; 1024],
        };
        for (p, place) in net.places.iter().enumerate().take(32) {
            (f.initial[p], f.capacity[p]) = (place.initial as u64, place.capacity as u64);
            f.label[16 * p..][..16].copy_from_slice(&place.label.room);
            f.lengths[p] = place.label.length;
        }
        for (j, m) in net.moves.iter().enumerate().take(64) {
            (f.rate[j], f.delay[j], f.arcs[j]) = (m.rate, m.delay, m.arcs.len());
            for (i, arc) in m.arcs.iter().enumerate().take(16) {
                let slot = 16 * j + i;
                (f.kind[slot], f.place[slot], f.weight[slot]) = (arc.kind(), arc.place(), arc.weight() as u64);
            }
        }
        f
    }
}

impl Fields {
    /// Anything in what is not looked at: past the places, the transitions, the arcs of a transition and the bytes of a label.
    pub fn littered(mut self, draw: &mut Draw) -> Fields {
        for p in 0..32 {
            let used = if p < self.places { self.lengths[p].min(16) } else { 0 };
            self.label[16 * p + used..16 * p + 16].iter_mut().for_each(|b| *b = draw.below(256) as u8);
        }
        for p in self.places..32 {
            (self.initial[p], self.capacity[p], self.lengths[p]) = (draw.any_length(), draw.any_length(), draw.any_length() as usize);
        }
        for j in 0..64 {
            let used = if j < self.transitions { self.arcs[j].min(16) } else { 0 };
            for slot in 16 * j + used..16 * j + 16 {
                (self.kind[slot], self.place[slot], self.weight[slot]) = (draw.below(6), draw.below(40) as usize, draw.any_length());
            }
        }
        for j in self.transitions..64 {
            (self.rate[j], self.delay[j], self.arcs[j]) = (draw.float(), draw.float(), draw.below(20) as usize);
        }
        self
    }
}

/// Calls a function with the fields of a net in front of its other arguments.
macro_rules! lend {
    ($function:expr, $f:expr, $($more:expr),*) => {
        unsafe {
            $function($f.places, $f.transitions, &$f.initial, &$f.capacity, &$f.label, &$f.lengths, &$f.rate, &$f.delay, &$f.arcs, &$f.kind, &$f.place, &$f.weight, $($more),*)
        }
    };
}

/// The number and line by which a net text is turned down, or 0 and 0.
pub fn read(text: &[u8]) -> [u64; 2] {
    let mut told = [0; 2];
    unsafe { c::cild_read(text.as_ptr(), text.len(), &mut told) };
    told
}

/// The end's number (a refusal's own; 100 quiet, 101 spent, 102 reached), the steps, the settled instants, the peak, the rounded steps.
pub fn path(f: &Fields, state: &mut [u64; 4], instants: &[f64], limit: u64, table: &mut [f64]) -> [u64; 5] {
    let mut told = [0; 5];
    lend!(c::cild_path, f, state, instants.as_ptr(), instants.len(), limit, table.as_mut_ptr(), table.len(), &mut told);
    told
}

/// The same of a path that halts after so many steps (103), with the state that it is left in.
pub fn path_until(f: &Fields, state: &mut [u64; 4], instants: &[f64], limit: u64, named: u64, table: &mut [f64], halted: &mut [u64; 816], times: &mut [f64; 257]) -> [u64; 5] {
    let mut told = [7; 5];
    lend!(c::cild_path_until, f, state, instants.as_ptr(), instants.len(), limit, named, table.as_mut_ptr(), table.len(), halted, times, &mut told);
    told
}

/// A halted path carried from one net to another by pairs of transition numbers, and played on.
pub fn carry(old: &Fields, new: &Fields, pairs: &[u64], instants: &[f64], named: u64, table: &mut [f64], halted: &mut [u64; 816], times: &mut [f64; 257]) -> [u64; 5] {
    let mut told = [7; 5];
    lend!(
        c::cild_carry, old, new.places, new.transitions, &new.initial, &new.capacity, &new.label, &new.lengths, &new.rate, &new.delay, &new.arcs, &new.kind, &new.place, &new.weight,
        pairs.as_ptr(), pairs.len(), instants.as_ptr(), instants.len(), named, table.as_mut_ptr(), table.len(), halted, times, &mut told
    );
    told
}

/// `cild_path`, of this library or of another. The answer may have fewer numbers there: `told` has room for more.
pub type PathFunction = unsafe extern "C" fn(
    usize, usize, *const [u64; 32], *const [u64; 32], *const [u8; 512], *const [usize; 32], *const [f64; 64], *const [f64; 64], *const [usize; 64], *const [u64; 1024],
    *const [usize; 1024], *const [u64; 1024], *mut [u64; 4], *const f64, usize, u64, *mut f64, usize, *mut [u64; 8],
);

/// The same by a function that was loaded.
pub fn path_by(function: PathFunction, f: &Fields, state: &mut [u64; 4], instants: &[f64], limit: u64, table: &mut [f64]) -> [u64; 8] {
    let mut told = [0; 8];
    lend!(function, f, state, instants.as_ptr(), instants.len(), limit, table.as_mut_ptr(), table.len(), &mut told);
    told
}

/// The number by which it was turned down or stopped, or 0; the stopped path's number, or how many were spent; 1 where there are deviations.
pub fn ensemble(f: &Fields, samples: u64, realizations: u64, seed: u64, horizon: f64, [mean, deviation, path]: &mut [Vec<f64>; 3]) -> [u64; 3] {
    let mut told = [0; 3];
    lend!(c::cild_ensemble, f, samples, realizations, seed, horizon, mean.as_mut_ptr(), mean.len(), deviation.as_mut_ptr(), deviation.len(), path.as_mut_ptr(), path.len(), &mut told);
    told
}

/// The number by which it was turned down or stopped, 0, or 100 where the net is gated; the stopped path's number, or 1 where there are deviations;
/// of a gated net reads, inhibitors, inputs that are not kinetic, the bounded places as bits, and 1 where there is a delay.
pub fn diffusion(f: &Fields, samples: u64, realizations: u64, seed: u64, horizon: f64, [mean, deviation, path]: &mut [Vec<f64>; 3]) -> [u64; 7] {
    let mut told = [0; 7];
    lend!(c::cild_diffusion, f, samples, realizations, seed, horizon, mean.as_mut_ptr(), mean.len(), deviation.as_mut_ptr(), deviation.len(), path.as_mut_ptr(), path.len(), &mut told);
    told
}

/// The refusal's number or 0, and the length of the text in front of the buffer.
pub fn reason(f: &Fields, out: &mut [u8]) -> [u64; 2] {
    let mut told = [0; 2];
    lend!(c::cild_reason, f, out.as_mut_ptr(), out.len(), &mut told);
    told
}

/// A refusal's number, or 100 no, 101 already there, 102 pass, 103 a transition; the transition's number; the positions.
pub fn game(f: &Fields, sides: &[u64], place: u64, count: u64, turns: u64) -> [u64; 3] {
    let mut told = [7; 3];
    lend!(c::cild_game, f, sides.as_ptr(), sides.len(), place, count, turns, &mut told);
    told
}

/// A refusal's number, or 100 balanced, 101 unbalanced; the lowest unbalanced transition's number.
pub fn balance(f: &Fields, weights: &[u64]) -> [u64; 2] {
    let mut told = [7; 2];
    lend!(c::cild_balance, f, weights.as_ptr(), weights.len(), &mut told);
    told
}

/// A refusal's number, or 0; bit j of mask p stands for transition j at place p.
pub fn index(f: &Fields, masks: &mut [u64; 32]) -> u64 {
    lend!(c::cild_index, f, masks)
}

/// Normal draws into out; how many before one was refused.
pub fn normals(state: &mut [u64; 4], spare: &mut f64, waiting: &mut bool, out: &mut [f64]) -> usize {
    unsafe { c::cild_normals(state, spare, waiting, out.as_mut_ptr(), out.len()) }
}

/// The refusal's number, or 0; the length of the text at the front of out.
pub fn soak(seed: u64, places: u64, transitions: u64, out: &mut [u8]) -> [u64; 2] {
    let mut told = [0; 2];
    unsafe { c::cild_soak(seed, places, transitions, out.as_mut_ptr(), out.len(), &mut told) };
    told
}

#[derive(Clone, Copy, Debug, PartialEq)]
pub struct Timer {
    pub at: f64,
    pub who: usize,
    pub taken: u64,
}

/// Where a timer list starts, its length, and 1 where it is known to be in order.
#[derive(Clone, Copy, Debug, PartialEq)]
pub struct Ring {
    pub start: usize,
    pub len: usize,
    pub ordered: u64,
}

/// A timer list, the first timer first.
pub struct Queue {
    pub ats: [f64; 256],
    pub whos: [usize; 256],
    pub takens: [u64; 256],
    pub len: usize,
}

impl Queue {
    pub fn timer(&self, k: usize) -> Timer {
        Timer { at: self.ats[k], who: self.whos[k], taken: self.takens[k] }
    }
}

/// The slots of a timer list.
#[derive(Clone)]
pub struct TimerSlots {
    ats: [f64; 256],
    owners: [u64; 512],
}

impl TimerSlots {
    /// Anything in each: times of which many are equal, some no numbers and some infinite.
    pub fn drawn(draw: &mut Draw) -> TimerSlots {
        let time = |draw: &mut Draw| match draw.below(40) {
            0 => f64::NAN,
            1 => f64::INFINITY,
            2 => -0.0,
            _ => draw.below(20) as f64,
        };
        TimerSlots { ats: std::array::from_fn(|_| time(draw)), owners: std::array::from_fn(|_| draw.word()) }
    }

    pub fn held(&self, k: usize) -> Timer {
        Timer { at: self.ats[k], who: self.owners[2 * k] as usize, taken: self.owners[2 * k + 1] }
    }

    pub fn alike(&self, other: &TimerSlots) -> bool {
        self.owners == other.owners && self.ats.iter().zip(&other.ats).all(|(a, b)| a.to_bits() == b.to_bits())
    }

    pub fn insert(&mut self, ring: &mut Ring, room: usize, x: Timer) -> bool {
        unsafe { c::cild_timer_insert(&mut self.ats, &mut self.owners, &mut ring.start, &mut ring.len, &mut ring.ordered, room, x.at, x.who, x.taken) }
    }

    pub fn remove(&self, ring: &mut Ring) {
        unsafe { c::cild_timer_remove(&mut ring.start, &mut ring.len, &mut ring.ordered) }
    }

    pub fn first(&self, ring: Ring) -> Timer {
        let (mut who, mut taken) = (0, 0);
        let at = unsafe { c::cild_timer_first(&self.ats, &self.owners, ring.start, ring.len, ring.ordered, &mut who, &mut taken) };
        Timer { at, who, taken }
    }

    pub fn timer_at(&self, ring: Ring, i: usize) -> Timer {
        let (mut who, mut taken) = (0, 0);
        let at = unsafe { c::cild_timer_at(&self.ats, &self.owners, ring.start, ring.len, ring.ordered, i, &mut who, &mut taken) };
        Timer { at, who, taken }
    }

    pub fn hand_in(&mut self, queue: &Queue) -> Ring {
        let mut ring = Ring { start: 7, len: 7, ordered: 7 };
        unsafe { c::cild_timers_in(&mut self.ats, &mut self.owners, &mut ring.start, &mut ring.len, &mut ring.ordered, &queue.ats, &queue.whos, &queue.takens, queue.len) };
        ring
    }

    pub fn hand_out(&self, ring: Ring) -> Queue {
        let mut queue = Queue { ats: [7.0; 256], whos: [7; 256], takens: [7; 256], len: 0 };
        queue.len = unsafe { c::cild_timers_out(&self.ats, &self.owners, ring.start, ring.len, ring.ordered, &mut queue.ats, &mut queue.whos, &mut queue.takens) };
        queue
    }
}
