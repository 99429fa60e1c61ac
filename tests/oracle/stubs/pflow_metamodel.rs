//! Stands in for the crate that the supplied source names and does not include. Only the names and
//! types that the source mentions are here: nothing under comparison calls them.

#[derive(Default, Clone, Copy)]
pub enum ArcType {
    #[default]
    Normal,
    Read,
    Inhibitor,
}

#[derive(Default)]
pub struct Arc {
    pub from: String,
    pub to: String,
    pub weight: i64,
    pub typ: ArcType,
    pub kinetic: Option<bool>,
}

#[derive(Default)]
pub struct Place {
    pub id: String,
    pub initial: i64,
    pub capacity: i64,
}

#[derive(Default)]
pub struct Transition {
    pub id: String,
}

#[derive(Default)]
pub struct Model {
    pub places: Vec<Place>,
    pub transitions: Vec<Transition>,
    pub arcs: Vec<Arc>,
}

pub struct End {
    pub place: String,
    pub weight: i64,
    pub kinetic: bool,
    pub typ: ArcType,
}

impl Model {
    pub fn inputs(&self, _transition: &str) -> Vec<End> {
        unimplemented!("not supplied")
    }

    pub fn outputs(&self, _transition: &str) -> Vec<End> {
        unimplemented!("not supplied")
    }

    pub fn tests(&self, _transition: &str) -> Vec<End> {
        unimplemented!("not supplied")
    }
}
