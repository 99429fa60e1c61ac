//! Document 02's order 8 by the second player and by the library: the path call that names a number of steps, and the call that carries a halted path to
//! another net. A halted path is in the words and times of the library's face, its recorded cells are in the table.
use crate::draw::Draw;
use crate::nets::Net;
use crate::player::{self, End, State, Timer, MOST_TIMERS, MOST_TOKENS};
use crate::rattle::{self, Fields};

pub const WORDS: usize = 816;
pub const TIMES: usize = 257;
/// Where the words stand behind the counts.
pub const GENERATOR: usize = 32;
pub const STEPS: usize = 36;
pub const LIMIT: usize = 37;
pub const PEAK: usize = 38;
pub const ROUNDED: usize = 39;
pub const RECORDED: usize = 40;
pub const TIMERS: usize = 41;
pub const WHO: usize = 48;
pub const TAKEN: usize = 304;
pub const MOST_TAKEN: u64 = 16_000_000;
pub const HALTED: u64 = 103;

// ---- what calls are lent and leave

/// A path call that names a number of steps.
#[derive(Clone)]
pub struct Until {
    pub net: Net,
    pub generator: [u64; 4],
    pub instants: Vec<f64>,
    pub limit: u64,
    pub named: u64,
}

/// A call that carries a path from one net to another; pair i is an old number and a new one, at 2i and 2i + 1.
#[derive(Clone)]
pub struct Carry {
    pub old: Net,
    pub new: Net,
    pub pairs: Vec<u64>,
    pub instants: Vec<f64>,
    pub named: u64,
}

impl Carry {
    /// To the same net with the identity list.
    pub fn on(net: &Net, instants: &[f64], named: u64) -> Carry {
        let pairs = (0..net.moves.len() as u64).flat_map(|j| [j, j]).collect();
        Carry { old: net.clone(), new: net.clone(), pairs, instants: instants.to_vec(), named }
    }
}

/// What a call may write, and what it has told.
#[derive(Clone)]
pub struct Lent {
    pub table: Vec<f64>,
    pub words: [u64; WORDS],
    pub times: [f64; TIMES],
    pub told: [u64; 5],
}

fn bits(xs: &[f64]) -> impl Iterator<Item = u64> + '_ {
    xs.iter().map(|x| x.to_bits())
}

/// Every bit.
impl PartialEq for Lent {
    fn eq(&self, other: &Lent) -> bool {
        self.told == other.told && self.words == other.words && bits(&self.times).eq(bits(&other.times)) && bits(&self.table).eq(bits(&other.table))
    }
}

impl Lent {
    /// Anything in the words and times, and so many cells of which none is a count.
    pub fn littered(draw: &mut Draw, cells: usize) -> Lent {
        Lent {
            table: (0..cells).map(|_| draw.below(100) as f64 + 0.5).collect(),
            words: std::array::from_fn(|_| draw.any_length()),
            times: std::array::from_fn(|_| draw.float()),
            told: [0; 5],
        }
    }

    /// The state that words and times are, of a net with so many places; further words are not looked at.
    pub fn state(&self, places: usize, instants: &[f64]) -> State {
        let w = &self.words;
        let timers = w[TIMERS].min(MOST_TIMERS as u64) as usize;
        State {
            clock: self.times[0],
            counts: w[..places].iter().map(|&c| c as i64).collect(),
            timers: (0..timers).map(|i| Timer { at: self.times[1 + i], who: w[WHO + i], taken: w[TAKEN + i] }).collect(),
            generator: w[GENERATOR..][..4].try_into().unwrap(),
            steps: w[STEPS],
            limit: w[LIMIT],
            peak: w[PEAK],
            rounded: w[ROUNDED],
            instants: instants.to_vec(),
            recorded: w[RECORDED] as usize,
        }
    }

    /// The words and times of a state; those that it does not use are 0.
    pub fn put(&mut self, s: &State) {
        (self.words, self.times) = ([0; WORDS], [0.0; TIMES]);
        let w = &mut self.words;
        s.counts.iter().enumerate().for_each(|(p, &c)| w[p] = c as u64);
        w[GENERATOR..][..4].copy_from_slice(&s.generator);
        (w[STEPS], w[LIMIT], w[PEAK], w[ROUNDED]) = (s.steps, s.limit, s.peak, s.rounded);
        (w[RECORDED], w[TIMERS]) = (s.recorded as u64, s.timers.len() as u64);
        self.times[0] = s.clock;
        for (i, timer) in s.timers.iter().enumerate() {
            (self.times[1 + i], self.words[WHO + i], self.words[TAKEN + i]) = (timer.at, timer.who, timer.taken);
        }
    }

    pub fn halted(&self) -> bool {
        self.told[0] == HALTED
    }

    pub fn refused(&self) -> bool {
        self.told[0] < 100
    }

    /// Where two differ.
    pub fn against(&self, other: &Lent) -> String {
        let word = (0..WORDS).find(|&k| self.words[k] != other.words[k]).map(|k| format!(", word {k} is {} and {}", self.words[k], other.words[k]));
        let time = (0..TIMES).find(|&k| self.times[k].to_bits() != other.times[k].to_bits()).map(|k| format!(", time {k} is {:?} and {:?}", self.times[k], other.times[k]));
        let cell = bits(&self.table).zip(bits(&other.table)).position(|(a, b)| a != b).map(|k| format!(", cell {k} is {:?} and {:?}", self.table[k], other.table[k]));
        format!("told {:?} and {:?}{}{}{}", self.told, other.told, word.unwrap_or_default(), time.unwrap_or_default(), cell.unwrap_or_default())
    }
}

// ---- by the second player

/// Plays on and leaves the state, unless the call is turned down.
fn go_on(net: &Net, mut state: State, named: u64, lent: &mut Lent) {
    let (end, _) = player::play_on(net, &mut state, named, &mut lent.table);
    if let End::Refused(number) = end {
        lent.told = [number, 0, 0, 0, 0];
    } else {
        lent.put(&state);
        lent.told = [end.number(), state.steps, state.settled(end) as u64, state.peak, state.rounded];
    }
}

/// The generator as it comes back.
pub fn until(c: &Until, lent: &mut Lent) -> [u64; 4] {
    if let Some(number) = player::path_fault(&c.net, &c.instants, c.limit, lent.table.len()) {
        lent.told = [number, 0, 0, 0, 0];
        return c.generator;
    }
    let state = State::beginning(&c.net, c.generator, &c.instants, c.limit, &mut lent.table);
    go_on(&c.net, state, c.named, lent);
    if lent.refused() {
        c.generator
    } else {
        lent.words[GENERATOR..][..4].try_into().unwrap()
    }
}

fn twice(xs: &[u64]) -> bool {
    xs.iter().enumerate().any(|(i, x)| xs[..i].contains(x))
}

fn new_number(pairs: &[u64], old: u64) -> Option<u64> {
    pairs.chunks_exact(2).find(|pair| pair[0] == old).map(|pair| pair[1])
}

/// The first refusal of a carrying call, before it is played on.
fn carry_fault(c: &Carry, lent: &Lent) -> Option<u64> {
    if let Some(number) = player::fault(&c.old).or_else(|| player::fault(&c.new)) {
        return Some(number);
    }
    let (places, instants) = (c.old.places.len(), c.instants.len());
    let s = lent.state(places, &c.instants);
    let times: Vec<f64> = [s.clock].into_iter().chain(s.timers.iter().map(|x| x.at)).collect();
    let strange = s.counts.iter().any(|n| !(0..=MOST_TOKENS).contains(n))
        || s.steps > s.limit
        || s.rounded > s.steps
        || times.iter().any(|&t| t < 0.0 || !t.is_finite())
        || times.windows(2).any(|w| w[1] < w[0])
        || s.timers.iter().any(|x| x.taken > MOST_TAKEN)
        || lent.words[TIMERS] > MOST_TIMERS as u64;
    if strange {
        return Some(4);
    }
    if !player::instants_fit(&c.instants) || s.recorded > instants || c.instants[s.recorded..].iter().any(|&x| x <= s.clock) {
        return Some(12);
    }
    if !player::limit_fits(s.limit) {
        return Some(13);
    }
    if lent.table.len() < places * instants {
        return Some(11);
    }
    let cell_fits = |x: f64| 0.0 <= x && x <= MOST_TOKENS as f64 && x.fract() == 0.0;
    if (0..places).any(|p| (0..s.recorded).any(|i| !cell_fits(lent.table[p * instants + i]))) {
        return Some(4);
    }
    if c.new.places.len() != places {
        return Some(20);
    }
    let side = |k: usize| c.pairs.chunks_exact(2).map(|pair| pair[k]).collect::<Vec<u64>>();
    let (olds, news) = (side(0), side(1));
    if olds.iter().any(|&j| j >= c.old.moves.len() as u64) || news.iter().any(|&j| j >= c.new.moves.len() as u64) || twice(&olds) || twice(&news) {
        return Some(21);
    }
    let sent = |x: &Timer| new_number(&c.pairs, x.who).is_some_and(|j| c.new.moves[j as usize].delay > 0.0);
    (!s.timers.iter().all(sent)).then_some(22)
}

pub fn carry(c: &Carry, lent: &mut Lent) {
    if let Some(number) = carry_fault(c, lent) {
        lent.told = [number, 0, 0, 0, 0];
        return;
    }
    let mut state = lent.state(c.old.places.len(), &c.instants);
    state.timers.iter_mut().for_each(|x| x.who = new_number(&c.pairs, x.who).unwrap());
    go_on(&c.new, state, c.named, lent);
}

// ---- by the library

/// The fields of a net, with anything in those that it does not use.
fn fields(net: &Net, lent: &Lent) -> Fields {
    Fields::of(net).littered(&mut Draw::new(lent.words[GENERATOR]))
}

pub fn until_by_library(c: &Until, lent: &mut Lent) -> [u64; 4] {
    let (mut generator, net) = (c.generator, fields(&c.net, lent));
    lent.told = rattle::path_until(&net, &mut generator, &c.instants, c.limit, c.named, &mut lent.table, &mut lent.words, &mut lent.times);
    generator
}

pub fn carry_by_library(c: &Carry, lent: &mut Lent) {
    let (old, new) = (fields(&c.old, lent), fields(&c.new, lent));
    lent.told = rattle::carry(&old, &new, &c.pairs, &c.instants, c.named, &mut lent.table, &mut lent.words, &mut lent.times);
}
