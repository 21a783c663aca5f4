//! Inputs of the calls that `bench` times and `once` makes, with the names of their rows.

use crate::versions::Version;
use reference::builder::*;
use reference::rng::Rng;

pub const PAIRINGS: [(u8, u8, &str); 6] = [
    (1, 1, "wind Spitz"),
    (1, 2, "wind Pauschal"),
    (2, 1, "solar Spitz"),
    (2, 2, "solar Pauschal"),
    (3, 1, "other Spitz"),
    (3, 2, "other Pauschal"),
];

/// One plant with one measure, negative and requested.
pub fn sheet(technology: u8, variant: u8, points: i32, before: usize, quarters: usize, rng: &mut Rng) -> Plant {
    let weather = |rng: &mut Rng| if technology == 1 { rng.range(40, 240) } else { rng.range(50, 900) } as i32;
    let curve = (0..points)
        .map(|at| Point { speed: 30 + at * 220 / (points - 1), power: (at * 2_000_000 / (points - 1)).min(1_999_999) })
        .collect();
    let before = (0..before)
        .map(|_| Before { mark: 1, measured: rng.range(300_000, 1_900_000) as i32, weather: weather(rng) })
        .collect();
    let quarters = (0..quarters)
        .map(|at| Quarter {
            month: 6,
            time: (at % 96) as u8,
            measured: rng.range(0, 900_000) as i32,
            limit: rng.range(0, 900_000) as i32,
            weather: weather(rng),
            planned: rng.range(0, 2_000_000) as i32,
            ..Quarter::default()
        })
        .collect();
    let measure = Measure { direction: 2, execution: 1, first: 0, before, quarters };
    Plant { technology, variant, nominal: 2_000_000, curve, measures: vec![measure] }
}

/// The row of a measure with a date.
pub const DATED: &str = "solar Pauschal, dated";

/// The same from 1 June 2026 on: June and July have June's factors, so that a version without dates gives the same.
pub fn dated(mut plant: Plant) -> Plant {
    plant.measures[0].first = 926_209;
    plant
}

/// The rows of request 3: technology, direction and name, all in Pauschal.
pub const OCTOBER: [(u8, u8, &str); 3] = [
    (1, 2, "wind Pauschal, since October 2026"),
    (3, 2, "other Pauschal, since October 2026"),
    (3, 1, "other Pauschal, positive, since October 2026"),
];

/// The same from 1 October 2026 on: each reading is there in half the quarters, and the smallest in some of them.
pub fn since_october(mut plant: Plant, direction: u8, rng: &mut Rng) -> Plant {
    let measure = &mut plant.measures[0];
    (measure.first, measure.direction) = (937_921, direction);
    if direction == 1 {
        measure.before[0].measured = 200_000;
    }
    for quarter in &mut measure.quarters {
        let mut reading = || if rng.chance(50) { i32::MAX } else { rng.range(0, 2_000_000) as i32 };
        (quarter.nonavailable, quarter.adjusted) = (reading(), reading());
    }
    plant
}

/// Whether a version has request 3: with a reading of 0 and L 0 nothing is left of the reference.
pub fn reads(version: &Version) -> bool {
    let mut plant = sheet(1, 2, 2, 1, 1, &mut Rng::new(7, 9));
    plant.measures[0].first = 937_921;
    plant.measures[0].quarters[0] = Quarter::default();
    let archive = file(&[plant], &Layout::PLAIN, &mut Rng::new(7, 9)).bytes;
    let (mut list, mut result) = ([0; 8], [0; 24]);
    version.places.iter().all(|place| place.settle(&archive, 1, 1, &mut list, &mut result) == 0 && list == [0; 8])
}

/// The rows of audit and of taking back: how a sound archive is filed.
pub const ORDERS: [(Order, &str); 2] = [(Order::Deep, "chain by chain"), (Order::Sticky, "chains mixed")];

/// A sound archive of so many records: plants with measures of 96 before-quarters and 192 quarters, chains mixed.
pub fn sound(records: usize, order: Order, rng: &mut Rng) -> Vec<u8> {
    let mut plants = Vec::new();
    let mut count = 1;
    while count + 315 <= records {
        plants.push(sheet(1, 1, 25, 96, 192, rng));
        count += 1 + 25 + 1 + 96 + 192;
    }
    let left = records - count;
    if left > 0 {
        let mut last = sheet(3, 1, 2, 0, left.saturating_sub(2), rng);
        last.curve.clear();
        if left == 1 {
            last.measures.clear();
        }
        plants.push(last);
    }
    let archive = file(&plants, &Layout { order, ..Layout::PLAIN }, rng).bytes;
    assert_eq!(archive.len(), 32 * records);
    archive
}

/// An archive with one chain of so many quarters and room for one more, the measure's number, and what takes that one off again.
pub fn with_room(length: usize, rng: &mut Rng) -> (Vec<u8>, u64, impl Fn(&mut [u8])) {
    let plant = sheet(3, 1, 2, 0, length, rng);
    let filed = file(&[plant], &Layout { spare: 1, ..Layout::PLAIN }, rng);
    let measure = &filed.plants[0].measures[0];
    let (owner, last) = (measure.number, measure.quarters[length - 1] as usize);
    let head: [u8; 4] = filed.bytes[4..8].try_into().unwrap();
    let end = filed.bytes.len() - 32;
    let undo = move |archive: &mut [u8]| {
        archive[4..8].copy_from_slice(&head);
        archive[last * 32 + 4..last * 32 + 8].fill(0);
        archive[end] = 0;
    };
    (filed.bytes, owner, undo)
}

/// What is appended, or seen ahead: a quarter with nothing in it.
pub const APPENDED: [u8; 32] = {
    let mut record = [0; 32];
    record[0] = 5;
    record
};

/// The amounts, balanced energies and prices of so many quarters; with more quarters the first ones are the same.
pub fn priced(quarters: usize, rng: &mut Rng) -> [Vec<i64>; 3] {
    let mut lists = [Vec::new(), Vec::new(), Vec::new()];
    for _ in 0..quarters {
        lists[0].push(rng.range(0, 500_000));
        lists[1].push(rng.range(0, 500_000));
        lists[2].push(rng.range(-5_000, 30_000));
    }
    lists
}
