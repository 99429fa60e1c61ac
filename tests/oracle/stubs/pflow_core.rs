//! Stands in for the crate that the supplied source names and does not include. Only the names and
//! types that the source mentions are here: nothing under comparison calls them.
use std::collections::HashMap;

pub enum ArcKind {
    Normal,
    Inhibitor,
    Read,
}

pub struct Place {
    pub capacity: Vec<f64>,
}

impl Place {
    pub fn token_count(&self) -> f64 {
        unimplemented!("not supplied")
    }
}

pub struct Transition;

pub struct Arc {
    pub source: String,
    pub target: String,
}

impl Arc {
    pub fn weight_sum(&self) -> f64 {
        unimplemented!("not supplied")
    }
}

pub struct PetriNet {
    pub places: HashMap<String, Place>,
    pub transitions: HashMap<String, Transition>,
    pub arcs: Vec<Arc>,
}

impl PetriNet {
    pub fn arc_kind(&self, _arc: &Arc) -> ArcKind {
        unimplemented!("not supplied")
    }
}
