//! Lays plants, measures and quarters out as an archive (document 01, "The archive"), in any order in which every
//! record stands behind the one that names it.

use crate::archive::*;
use crate::rng::Rng;

#[derive(Clone, Copy, Debug)]
pub struct Point {
    pub speed: i32,
    pub power: i32,
}

#[derive(Clone, Copy, Debug)]
pub struct Before {
    pub mark: u8,
    pub measured: i32,
    pub weather: i32,
}

#[derive(Clone, Copy, Debug, Default)]
pub struct Quarter {
    pub month: u8,
    pub time: u8,
    pub measured: i32,
    pub limit: i32,
    pub weather: i32,
    pub planned: i32,
    /// Power while not available and power after market adjustment, `i32::MAX` for none.
    pub nonavailable: i32,
    pub adjusted: i32,
}

#[derive(Clone, Debug)]
pub struct Measure {
    pub direction: u8,
    pub execution: u8,
    /// Number of its first quarter, 0 if it is undated.
    pub first: u32,
    pub before: Vec<Before>,
    pub quarters: Vec<Quarter>,
}

#[derive(Clone, Debug)]
pub struct Plant {
    pub technology: u8,
    pub variant: u8,
    pub nominal: i32,
    pub curve: Vec<Point>,
    pub measures: Vec<Measure>,
}

/// Which record comes next.
#[derive(Clone, Copy, Debug, PartialEq, Eq)]
pub enum Order {
    /// A chain's records next to each other.
    Deep,
    /// All chains side by side.
    Wide,
    /// Any order.
    Shuffled,
    /// Stretches of chains, mixed.
    Sticky,
}

/// What stands in used records that nothing names.
#[derive(Clone, Copy, Debug, PartialEq, Eq)]
pub enum Filler {
    Noise,
    /// A known kind with zero links.
    Orphan,
}

#[derive(Clone, Copy, Debug)]
pub struct Layout {
    pub order: Order,
    /// Chance in percent of a used record that nothing names, before each record.
    pub gaps: usize,
    pub filler: Filler,
    /// Records behind U.
    pub spare: usize,
    /// Noise in bytes that no rule reads and in records behind U.
    pub noise: bool,
}

impl Layout {
    /// Records in the order of their chains, nothing else.
    pub const PLAIN: Layout = Layout { order: Order::Deep, gaps: 0, filler: Filler::Noise, spare: 0, noise: false };
}

/// Numbers of a measure's records.
#[derive(Clone, Debug, Default)]
pub struct FiledMeasure {
    pub number: u64,
    pub before: Vec<u64>,
    pub quarters: Vec<u64>,
}

/// Numbers of a plant's records.
#[derive(Clone, Debug, Default)]
pub struct FiledPlant {
    pub number: u64,
    pub curve: Vec<u64>,
    pub measures: Vec<FiledMeasure>,
}

/// An archive and where everything stands in it.
#[derive(Clone, Debug)]
pub struct Filed {
    pub bytes: Vec<u8>,
    pub used: u64,
    pub plants: Vec<FiledPlant>,
}

impl Filed {
    pub fn all(&self) -> u64 {
        (self.bytes.len() / RECORD) as u64
    }

    pub fn byte(&mut self, number: u64, at: usize) -> &mut u8 {
        &mut self.bytes[number as usize * RECORD + at]
    }

    pub fn link(&self, number: u64, at: usize) -> u64 {
        link(record(&self.bytes, number), at)
    }

    pub fn set_link(&mut self, number: u64, at: usize, to: u32) {
        let start = number as usize * RECORD + at;
        self.bytes[start..start + 4].copy_from_slice(&to.to_le_bytes());
    }

    pub fn set_used(&mut self, used: u32) {
        self.bytes[4..8].copy_from_slice(&used.to_le_bytes());
    }

    pub fn kind(&self, number: u64) -> u8 {
        self.bytes[number as usize * RECORD]
    }
}

fn put(bytes: &mut [u8; RECORD], at: usize, value: i32) {
    bytes[at..at + 4].copy_from_slice(&value.to_le_bytes());
}

fn blank(kind: u8, rng: &mut Rng, noise: bool) -> [u8; RECORD] {
    let mut bytes = [0; RECORD];
    if noise {
        rng.fill(&mut bytes);
        bytes[4..8].fill(0);
        if kind == PLANT || kind == MEASURE {
            bytes[8..16].fill(0);
        }
    }
    bytes[0] = kind;
    bytes
}

/// The 32 bytes of a plant, its links zero.
pub fn plant_record(plant: &Plant, rng: &mut Rng, noise: bool) -> [u8; RECORD] {
    let mut bytes = blank(PLANT, rng, noise);
    bytes[1] = plant.technology;
    bytes[2] = plant.variant;
    put(&mut bytes, 16, plant.nominal);
    bytes
}

pub fn point_record(point: &Point, rng: &mut Rng, noise: bool) -> [u8; RECORD] {
    let mut bytes = blank(POINT, rng, noise);
    put(&mut bytes, 8, point.speed);
    put(&mut bytes, 12, point.power);
    bytes
}

pub fn measure_record(measure: &Measure, rng: &mut Rng, noise: bool) -> [u8; RECORD] {
    let mut bytes = blank(MEASURE, rng, noise);
    bytes[1] = measure.direction;
    bytes[2] = measure.execution;
    bytes[DATE..DATE + 4].copy_from_slice(&measure.first.to_le_bytes());
    bytes
}

pub fn before_record(before: &Before, rng: &mut Rng, noise: bool) -> [u8; RECORD] {
    let mut bytes = blank(BEFORE, rng, noise);
    bytes[1] = before.mark;
    put(&mut bytes, 8, before.measured);
    put(&mut bytes, 16, before.weather);
    bytes
}

pub fn quarter_record(quarter: &Quarter, rng: &mut Rng, noise: bool) -> [u8; RECORD] {
    let mut bytes = blank(QUARTER, rng, noise);
    bytes[1] = quarter.month;
    bytes[2] = quarter.time;
    put(&mut bytes, 8, quarter.measured);
    put(&mut bytes, 12, quarter.limit);
    put(&mut bytes, 16, quarter.weather);
    put(&mut bytes, 20, quarter.planned);
    put(&mut bytes, NONAVAILABLE, quarter.nonavailable);
    put(&mut bytes, ADJUSTED, quarter.adjusted);
    bytes
}

/// A record still to be placed: its bytes and the place of the link that names it.
struct Node {
    bytes: [u8; RECORD],
    holder: usize,
    at: usize,
    number: u64,
}

/// Adds a record behind `last` of its chain, or as the first one at its owner.
fn add(nodes: &mut Vec<Node>, owner: usize, first: usize, last: &mut Option<usize>, bytes: [u8; RECORD]) -> usize {
    let (holder, at) = match *last {
        None => (owner, first),
        Some(last) => (last, NEXT),
    };
    nodes.push(Node { bytes, holder, at, number: 0 });
    *last = Some(nodes.len() - 1);
    nodes.len() - 1
}

/// Files plants as an archive.
pub fn file(plants: &[Plant], layout: &Layout, rng: &mut Rng) -> Filed {
    let noise = layout.noise;
    let mut head = blank(0, rng, noise);
    head[..12].fill(0);
    head[..4].copy_from_slice(b"AARB");
    let mut nodes = vec![Node { bytes: head, holder: 0, at: 0, number: 0 }];

    // Nodes in the order of the chains, and the same shape in node indexes.
    let mut shape = Vec::new();
    let mut last_plant = None;
    for plant in plants {
        let at = add(&mut nodes, 0, FIRST, &mut last_plant, plant_record(plant, rng, noise));
        let mut filed = FiledPlant { number: at as u64, ..FiledPlant::default() };
        let mut last = None;
        for point in &plant.curve {
            filed.curve.push(add(&mut nodes, at, FIRST, &mut last, point_record(point, rng, noise)) as u64);
        }
        let mut last_measure = None;
        for measure in &plant.measures {
            let own = add(&mut nodes, at, SECOND, &mut last_measure, measure_record(measure, rng, noise));
            let mut inner = FiledMeasure { number: own as u64, ..FiledMeasure::default() };
            let mut last = None;
            for before in &measure.before {
                inner.before.push(add(&mut nodes, own, FIRST, &mut last, before_record(before, rng, noise)) as u64);
            }
            let mut last = None;
            for quarter in &measure.quarters {
                inner
                    .quarters
                    .push(add(&mut nodes, own, SECOND, &mut last, quarter_record(quarter, rng, noise)) as u64);
            }
            filed.measures.push(inner);
        }
        shape.push(filed);
    }

    // Place them, holders first.
    let mut named: Vec<Vec<usize>> = vec![Vec::new(); nodes.len()];
    for (index, node) in nodes.iter().enumerate().skip(1) {
        named[node.holder].push(index);
    }
    let mut records: Vec<[u8; RECORD]> = vec![nodes[0].bytes];
    let mut open = named[0].clone();
    while !open.is_empty() {
        let at = match layout.order {
            Order::Deep => open.len() - 1,
            Order::Wide => 0,
            Order::Shuffled => rng.below(open.len()),
            Order::Sticky if rng.chance(80) => open.len() - 1,
            Order::Sticky => rng.below(open.len()),
        };
        let index = if layout.order == Order::Wide { open.remove(at) } else { open.swap_remove(at) };
        while rng.below(100) < layout.gaps {
            let mut gap = blank(0, rng, true);
            match layout.filler {
                Filler::Noise => {
                    gap[0] = rng.below(8) as u8;
                    gap[4] = rng.below(40) as u8;
                }
                Filler::Orphan => {
                    gap[0] = 1 + rng.below(5) as u8;
                    gap[4..16].fill(0);
                }
            }
            records.push(gap);
        }
        nodes[index].number = records.len() as u64;
        records.push(nodes[index].bytes);
        open.extend(named[index].iter().rev());
    }

    // Links, U and the records behind it.
    for node in &nodes[1..] {
        let holder = nodes[node.holder].number as usize;
        records[holder][node.at..node.at + 4].copy_from_slice(&(node.number as u32).to_le_bytes());
    }
    let used = records.len() as u64;
    records[0][4..8].copy_from_slice(&(used as u32).to_le_bytes());
    for _ in 0..layout.spare {
        let mut unused = [0; RECORD];
        if noise {
            rng.fill(&mut unused);
            unused[0] = rng.below(7) as u8;
        }
        records.push(unused);
    }

    let number = |index: &mut u64| *index = nodes[*index as usize].number;
    for plant in &mut shape {
        number(&mut plant.number);
        plant.curve.iter_mut().for_each(number);
        for measure in &mut plant.measures {
            number(&mut measure.number);
            measure.before.iter_mut().for_each(number);
            measure.quarters.iter_mut().for_each(number);
        }
    }
    Filed { bytes: records.concat(), used, plants: shape }
}

/// Case a of document 01, as the only measure of a plant with one before-quarter.
pub fn case_a() -> Plant {
    let quarter = |measured| Quarter { month: 7, time: 40, measured, ..Quarter::default() };
    let measure = Measure {
        direction: 2,
        execution: 2,
        first: 0,
        before: vec![Before { mark: 1, measured: 800_000, weather: 0 }],
        quarters: [500_001, 500_001, 500_002].map(quarter).to_vec(),
    };
    Plant { technology: 3, variant: 2, nominal: 1_000_000, curve: Vec::new(), measures: vec![measure] }
}
