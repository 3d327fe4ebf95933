//! Files spoilt as a whole: cut, changed, out of order or too long.

use crate::aim::{any_mark, few, prefix, tail};
use crate::good;
use crate::maker::{pool_body, Maker};
use crate::rng::Rng;
use crate::style::Style;

/// A small good day, for files that are spoilt afterwards.
fn small_day(rng: &mut Rng) -> Maker {
    let style = few(rng);
    let mut maker = good::day(&style, rng);
    maker.close_day();
    maker
}

/// A pool's offer of some count, with all of its steps or without the last bytes.
fn cut_offer(rng: &mut Rng) -> Vec<u8> {
    let mut maker = prefix(b"OP", rng);
    let count = rng.pick(&[0, 1, 8, 9, 200, 255]);
    let steps = vec![(rng.pick(&[0, 60, 61]), 1); count];
    let pool = rng.pick(&maker.pools()).number;
    let body = pool_body(rng.pick(&[pool, pool, 64]), &steps);
    let missing = rng.pick(&[0, 1, 1, 2, 3, body.len() as u64 - 2, body.len() as u64 - 1]);
    maker.raw(b"OP");
    maker
        .bytes
        .extend(&body[..body.len().saturating_sub(missing as usize)]);
    maker.bytes
}

/// A good file cut off somewhere.
pub fn cut(rng: &mut Rng) -> Vec<u8> {
    if rng.percent(25) {
        return cut_offer(rng);
    }
    let Maker {
        mut bytes, places, ..
    } = small_day(rng);
    let place = rng.pick(&places);
    let steps: Vec<usize> = places
        .iter()
        .copied()
        .filter(|&p| bytes[p..].starts_with(b"OP"))
        .collect();
    let end = match rng.below(8) {
        0 | 1 => place,
        2 => place + 1,
        3 => place + 2,
        4 if !steps.is_empty() => rng.pick(&steps) + rng.range(2, 6) as usize,
        5 => bytes.len() - 1,
        6 => bytes.len() - 2,
        _ => rng.below(bytes.len() as u64) as usize,
    };
    bytes.truncate(end);
    bytes
}

/// A good file with a few bytes changed, inserted or deleted.
pub fn mutated(rng: &mut Rng) -> Vec<u8> {
    let Maker {
        mut bytes, places, ..
    } = small_day(rng);
    for _ in 0..rng.pick(&[1, 1, 1, 2, 5]) {
        let at = rng.below(bytes.len() as u64) as usize;
        let byte = rng.byte();
        match rng.below(5) {
            0 => bytes[at] = byte,
            1 => bytes[at] ^= 1 << rng.below(8),
            2 => bytes.insert(at, byte),
            3 if bytes.len() > 1 => {
                bytes.remove(at);
            }
            _ => {
                // A mark changed.
                let place = rng.pick(&places).min(bytes.len() - 1);
                bytes[place] = rng.pick(b"DEOCBWRXdA\0 ");
            }
        }
    }
    bytes
}

/// Bytes without order, perhaps after a good head.
pub fn noise(rng: &mut Rng) -> Vec<u8> {
    let mut bytes = match rng.below(4) {
        0 | 1 => Vec::new(),
        2 => b"DA\x02\x58".to_vec(),
        _ => b"DA\x02\x58CO".to_vec(),
    };
    let count = rng.pick(&[0, 0, 1, 2, 3, 20, 300]);
    bytes.extend((0..count).map(|_| rng.byte()));
    bytes
}

/// A known mark at some stage, mostly a wrong one, with its body, a part of it or none.
pub fn wrong_stage(rng: &mut Rng) -> Vec<u8> {
    let mut maker = match rng.below(4) {
        0 => Maker::new(),
        1 => prefix(b"EU", rng),
        2 => prefix(b"BA", rng),
        _ => small_day(rng),
    };
    maker.raw(any_mark(rng));
    let body: Vec<u8> = (0..rng.pick(&[0, 0, 1, 2, 5, 12]))
        .map(|_| rng.below(6) as u8)
        .collect();
    maker.bytes.extend(body);
    if rng.percent(50) {
        tail(&mut maker, rng);
    }
    maker.bytes
}

/// A good day with something after its end.
pub fn after_end(rng: &mut Rng) -> Vec<u8> {
    let mut bytes = small_day(rng).bytes;
    match rng.below(6) {
        0 => bytes.push(rng.byte()),
        1 => bytes.push(b'C'),
        2 => bytes.extend(b"CD"),
        3 => bytes.extend([rng.byte(), rng.byte()]),
        4 => bytes.extend(b"\r\n"),
        _ => {
            bytes.extend(any_mark(rng));
            bytes.extend((0..rng.below(12)).map(|_| rng.byte()));
        }
    }
    bytes
}

/// Files of about the greatest size: below it, at it and above it.
pub fn about_greatest(rank: u64, rng: &mut Rng) -> Vec<u8> {
    let sizes = [
        65_536, 65_535, 65_537, 65_534, 65_536, 70_000, 65_535, 131_072,
    ];
    let size = sizes[(rank % sizes.len() as u64) as usize];
    if rank % 5 == 4 {
        // Nothing good in it: the size is tested first.
        return (0..size).map(|_| rng.byte()).collect();
    }
    let mut maker = Maker::new();
    maker.open(rng.range(0, 1000) as u16);
    let plant = rng.below(64) as u8;
    maker.enrol_plant(plant, rng.below(8) as u8);
    good::opening(
        &mut maker,
        &Style {
            plants: 5,
            ..Style::any(rng)
        },
        rng,
    );
    maker.close_offers();
    good::running(&mut maker, &Style::any(rng), rng);
    // Readings have 8 bytes and wants 9: together they make any length.
    let end = size - if rng.percent(80) { 2 } else { 0 };
    while maker.bytes.len() < end {
        let left = end - maker.bytes.len();
        let period = rng.below(95) as u8;
        if left % 8 == 0 {
            let energy = rng.below(1_000_000) as u32;
            maker.bytes.extend([b'R', b'W', plant, period]);
            maker.bytes.extend(energy.to_be_bytes());
        } else {
            // Period 95 is never cleared.
            let power = 500 * rng.below(401) as u32;
            maker.bytes.extend([b'W', b'A', 0, rng.below(8) as u8, 95]);
            maker.bytes.extend(power.to_be_bytes());
        }
    }
    if maker.bytes.len() < size {
        maker.close_day();
    }
    maker.bytes
}
