//! A net as plain data, the one form from which both sides are filled: arcs in line order, weights
//! and rates as written (0 still means 1).

#[derive(Clone, Copy, PartialEq)]
pub enum Arc {
    Take { place: usize, weight: i64, kinetic: bool },
    Put { place: usize, weight: i64 },
    Read { place: usize, weight: i64 },
    Block { place: usize, weight: i64 },
}

/// A label as the record holds it: room for sixteen bytes, of which the first `length` count. A longer one has no room, and is known by its length.
#[derive(Clone, Copy, Debug)]
pub struct Label {
    pub room: [u8; 16],
    pub length: usize,
}

impl Label {
    pub fn new(text: &[u8]) -> Label {
        let mut room = [0; 16];
        for (a, b) in room.iter_mut().zip(text) {
            *a = *b;
        }
        Label { room, length: text.len() }
    }

    /// q0, q1 and so on.
    pub fn numbered(p: usize) -> Label {
        Label::new(format!("q{p}").as_bytes())
    }

    /// The bytes that count, of a label that has room.
    pub fn bytes(&self) -> &[u8] {
        &self.room[..self.length.min(16)]
    }

    pub fn text(&self) -> &str {
        std::str::from_utf8(self.bytes()).unwrap()
    }
}

#[derive(Clone, Copy)]
pub struct Place {
    pub initial: i64,
    pub capacity: i64,
    pub label: Label,
}

#[derive(Clone)]
pub struct Move {
    pub rate: f64,
    pub delay: f64,
    pub arcs: Vec<Arc>,
}

#[derive(Clone)]
pub struct Net {
    pub places: Vec<Place>,
    pub moves: Vec<Move>,
}

/// The net of document 01's text example: two tokens pass from one place to another, a second each.
pub fn example() -> Net {
    Net {
        places: vec![
            Place { initial: 2, capacity: 0, label: Label::numbered(0) },
            Place { initial: 0, capacity: 0, label: Label::numbered(1) },
        ],
        moves: vec![Move {
            rate: 1.0,
            delay: 1.0,
            arcs: vec![
                Arc::Take { place: 0, weight: 1, kinetic: true },
                Arc::Put { place: 1, weight: 1 },
            ],
        }],
    }
}

impl Arc {
    /// The number of its kind in the record of a net.
    pub fn kind(&self) -> u64 {
        match self {
            Arc::Take { kinetic: true, .. } => 0,
            Arc::Take { kinetic: false, .. } => 1,
            Arc::Put { .. } => 2,
            Arc::Read { .. } => 3,
            Arc::Block { .. } => 4,
        }
    }

    pub fn place(&self) -> usize {
        match *self {
            Arc::Take { place, .. } | Arc::Put { place, .. } | Arc::Read { place, .. } | Arc::Block { place, .. } => place,
        }
    }

    pub fn weight(&self) -> i64 {
        match *self {
            Arc::Take { weight, .. } | Arc::Put { weight, .. } | Arc::Read { weight, .. } | Arc::Block { weight, .. } => weight,
        }
    }
}

/// A net text as the files of `nets/` have it, with its run line: samples, seed and horizon. A text that is not of that form stops the program.
pub fn read(text: &str) -> (Net, usize, u64, f64) {
    let (mut net, mut run) = (Net { places: vec![], moves: vec![] }, None);
    for line in text.lines() {
        let words: Vec<&str> = line.split([' ', '(', ')']).filter(|w| !w.is_empty()).collect();
        let float = |w: &str| f64::from_bits(u64::from_str_radix(w, 16).unwrap());
        let number = |w: &str| w.parse::<u64>().unwrap();
        match words[..] {
            ["place", initial, capacity, label] => {
                net.places.push(Place { initial: number(initial) as i64, capacity: number(capacity) as i64, label: Label::new(label.as_bytes()) })
            }
            ["move", rate, delay, ref arcs @ ..] => {
                let (mut rest, mut list) = (arcs, vec![]);
                while let [kind, place, weight, ..] = *rest {
                    let (place, weight) = (number(place) as usize, number(weight) as i64);
                    list.push(match kind {
                        "take" => Arc::Take { place, weight, kinetic: rest[3] == "1" },
                        "put" => Arc::Put { place, weight },
                        "read" => Arc::Read { place, weight },
                        "block" => Arc::Block { place, weight },
                        _ => panic!("{kind} is no arc"),
                    });
                    rest = &rest[if kind == "take" { 4 } else { 3 }..];
                }
                net.moves.push(Move { rate: float(rate), delay: float(delay), arcs: list });
            }
            ["run", samples, _, seed, horizon] => run = Some((number(samples) as usize, number(seed), float(horizon))),
            ["net"] | [] => (),
            _ => panic!("{line} is no line of a net text"),
        }
    }
    let (samples, seed, horizon) = run.expect("no run line");
    (net, samples, seed, horizon)
}
