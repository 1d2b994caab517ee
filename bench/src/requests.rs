//! The lists that are timed: fleets as in an examination, and hard ones, each with its threshold and bound.

use bench::occurrence::{self, Case};
use bench::{peers, remarks};
use compare::random::{self, Random, Taste};
use compare::library::{self, FULL};
use compare::model;

#[derive(Clone)]
pub struct Request {
    pub name: String,
    pub fleet: Vec<u16>,
    pub threshold: usize,
    pub bound: usize,
    pub profile: usize,
}

impl Request {
    pub fn new(fleet_name: &str, fleet: Vec<u16>, threshold: usize, bound: usize) -> Request {
        Request { name: format!("{fleet_name}, {threshold}, {bound}"), fleet, threshold, bound, profile: FULL }
    }

    pub fn asked(&self) -> library::Request {
        library::Request { threshold: self.threshold, bound: self.bound, profile: self.profile }
    }

    /// The key program's input.
    pub fn input(&self) -> Vec<u8> {
        [vec![self.threshold as u8, self.bound as u8], model::bytes_of(&self.fleet)].concat()
    }

    /// The list program's input.
    pub fn list_input(&self) -> Vec<u8> {
        let request = [self.threshold as u8, 0, self.bound as u8, self.profile as u8];
        [request.to_vec(), model::bytes_of(&self.fleet)].concat()
    }

    /// The same at a profile.
    pub fn at(&self, profile: usize) -> Request {
        Request { profile, ..self.clone() }
    }

    /// The same, its fleet's remarks taken out.
    pub fn without_remarks(self) -> Request {
        Request { fleet: remarks::left_out(&self.fleet), ..self }
    }

    /// The lightest form of as many nodes as the bound allows, to be looked for in the fleet.
    fn case(self) -> Case {
        let mut pattern = vec![];
        peers::mine(&self.fleet, self.asked(), &mut |form, _| {
            pattern = form.to_vec();
            pattern.len() < self.bound
        });
        Case { name: format!("a form, {}", self.name), fleet: self.fleet, pattern }
    }
}

/// Nineteen vehicles of about so many nodes.
pub fn nineteen(nodes: usize, threshold: usize, bound: usize) -> Request {
    let fleet = random::plausible_fleet(&mut Random::new(nodes as u64), 19, nodes);
    Request::new(&format!("nineteen of {nodes} nodes"), fleet, threshold, bound)
}

pub fn exam() -> Vec<Request> {
    let mut requests = vec![];
    for nodes in [50, 100, 200] {
        for threshold in [12, 6] {
            requests.extend([4, 6, 8].map(|bound| nineteen(nodes, threshold, bound)));
        }
    }
    requests
}

/// Nineteen vehicles of about so many nodes, so many thirds of them remarks.
fn remarked(nodes: usize, thirds: usize, threshold: usize, bound: usize) -> Request {
    let random = &mut Random::new(nodes as u64);
    let others = remarks::left_out(&random::plausible_fleet(random, 19, nodes * (3 - thirds) / 3));
    let with_remarks = |tree: &Vec<u16>| remarks::put_in(random, tree, tree.len() * thirds / (3 - thirds));
    let fleet: Vec<u16> = model::vehicles(&others).iter().flat_map(with_remarks).collect();
    assert!(model::is_fleet(&fleet), "remarks stand where they may");
    Request::new(&format!("19 of {nodes} nodes, {thirds}/3 remarks"), fleet, threshold, bound)
}

/// Fleets as in an examination, with many remarks.
pub fn with_remarks() -> Vec<Request> {
    let mut requests = vec![];
    for nodes in [50, 100, 200] {
        for thirds in [1, 2] {
            requests.extend([12, 6].map(|threshold| remarked(nodes, thirds, threshold, 8)));
        }
    }
    requests
}

/// Hard cases of occurrence, and exam fleets with no, some and many remarks.
pub fn cases() -> Vec<Case> {
    let no_remarks = nineteen(200, 6, 8).without_remarks();
    let fleets = [no_remarks, remarked(200, 1, 6, 8), remarked(200, 2, 6, 8)];
    occurrence::cases().into_iter().chain(fleets.map(Request::case)).collect()
}

/// Of 85,023 forms.
pub fn longest() -> Request {
    nineteen(200, 12, 16)
}

pub fn example() -> Request {
    Request::new("examples/nineteen", model::parse_fleet(include_str!("../../examples/nineteen.txt")), 12, 16)
}

/// `examples/nineteen`, and fleets of few labels, of many equal or nearly equal siblings, deep, or of many vehicles.
pub fn hard() -> Vec<Request> {
    let few_labels = |vehicles, nodes, labels, down| {
        random::fleet(&mut Random::new(3), vehicles, nodes, Taste { labels, down, remarks: false })
    };
    vec![
        example(),
        Request::new("16 stars of 255 equal runs", star().repeat(16), 16, 16),
        Request::new("16 wide ones of 40 labels", wide(), 14, 4),
        Request::new("64 chains of depth 15", chain().repeat(64), 64, 16),
        Request::new("16 of one label a family", few_labels(16, 200, 1, 5), 16, 8),
        Request::new("16 deep of one label a family", few_labels(16, 200, 1, 8), 12, 10),
        Request::new("64 of one label a family", few_labels(64, 64, 1, 5), 48, 10),
        Request::new("64 deep of two labels a family", few_labels(64, 64, 2, 9), 32, 8),
        Request::new("64 of three labels a family", few_labels(64, 64, 3, 5), 20, 8),
        Request::new("64 plausible of 64 nodes", random::plausible_fleet(&mut Random::new(64), 64, 64), 8, 8),
    ]
}

pub fn star() -> Vec<u16> {
    (0..256).map(|i| if i == 0 { 101 } else { 1201 }).collect()
}

pub fn chain() -> Vec<u16> {
    (0..16).map(|at| 1000 * at + [101, 201, 301, 401][at.min(3) as usize]).collect()
}

/// Sixteen vehicles of 255 runs each.
fn wide() -> Vec<u16> {
    let mut random = Random::new(5);
    (0..16 * 256).map(|i| if i % 256 == 0 { 101 } else { 1200 + random.below(40) as u16 }).collect()
}
