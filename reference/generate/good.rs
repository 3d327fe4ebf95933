//! Good days of many styles.

use crate::maker::{Maker, Seller, PERIODS};
use crate::rng::Rng;
use crate::style::{Bases, Capacities, Floors, Prices, Readings, Style, Wants, TIER_CAPS};

const MOST_WANT: u64 = 200_000;
const MOST_ENERGY: u64 = 1_000_000;

pub fn day(style: &Style, rng: &mut Rng) -> Maker {
    let mut maker = Maker::new();
    maker.open(style.share);
    opening(&mut maker, style, rng);
    maker.close_offers();
    running(&mut maker, style, rng);
    maker
}

/// Numbers below `end` in a random order, without those in `taken`.
fn numbers(end: u8, taken: &[u8], rng: &mut Rng) -> Vec<u8> {
    let mut numbers: Vec<u8> = (0..end).filter(|number| !taken.contains(number)).collect();
    rng.shuffle(&mut numbers);
    numbers
}

/// The areas of a day of that style.
fn areas(style: &Style, rng: &mut Rng) -> Vec<u8> {
    let mut areas = numbers(8, &[], rng);
    areas.truncate(style.areas.max(1) as usize);
    areas
}

pub fn opening(maker: &mut Maker, style: &Style, rng: &mut Rng) {
    let areas = areas(style, rng);
    let taken: Vec<u8> = maker.sellers.iter().map(|s| s.number).collect();
    let common = rng.range(100, 600) as u16;
    let mut free = numbers(64, &taken, rng);
    free.truncate((style.units + style.pools) as usize);
    let first = maker.sellers.len();
    let mut kinds: Vec<bool> = (0..free.len() as u64)
        .map(|index| index < style.units)
        .collect();
    rng.shuffle(&mut kinds);
    for (number, unit) in free.into_iter().zip(kinds) {
        let (area, capacity) = (rng.pick(&areas), capacity(style, common, rng));
        if unit {
            let floor = floor(style, capacity, rng);
            maker.enrol_unit(number, area, capacity, floor);
        } else {
            maker.enrol_pool(number, area, capacity);
        }
        if rng.percent(30) {
            offer_last(maker, style, rng);
        }
    }
    let taken: Vec<u8> = maker.plants.iter().map(|plant| plant.0).collect();
    for number in numbers(64, &taken, rng)
        .into_iter()
        .take(style.plants as usize)
    {
        let area = rng.pick(&areas);
        maker.enrol_plant(number, area);
    }
    let mut sellers = maker.sellers[first..].to_vec();
    rng.shuffle(&mut sellers);
    for seller in sellers {
        if !seller.offered && !rng.percent(style.missing) {
            offer(maker, seller, style, rng);
        }
        while rng.percent(style.again.min(60)) {
            offer(maker, seller, style, rng);
        }
    }
}

fn offer_last(maker: &mut Maker, style: &Style, rng: &mut Rng) {
    if let Some(&seller) = maker.sellers.last() {
        offer(maker, seller, style, rng);
    }
}

fn offer(maker: &mut Maker, seller: Seller, style: &Style, rng: &mut Rng) {
    if seller.floor.is_some() {
        maker.offer_unit(seller.number, tier_prices(style.prices, rng));
    } else {
        let steps = pool_steps(style.prices, seller.capacity, rng);
        maker.offer_pool(seller.number, &steps);
    }
}

fn capacity(style: &Style, common: u16, rng: &mut Rng) -> u16 {
    match style.capacities {
        Capacities::Any => rng.range(1, 2000) as u16,
        Capacities::Middle => rng.range(100, 700) as u16,
        Capacities::Small => rng.range(1, 60) as u16,
        Capacities::Equal => common,
        Capacities::Proportional => common / 10 * rng.range(1, 4) as u16,
        Capacities::Extreme => rng.pick(&[1, 2, 3, 1999, 2000, 2000]),
    }
}

fn floor(style: &Style, capacity: u16, rng: &mut Rng) -> u16 {
    let most = u64::from(10 * capacity);
    let floor = match style.floors {
        Floors::Zero => 0,
        Floors::Low => rng.range(0, most * 4 / 10),
        Floors::Any => rng.range(0, most),
        Floors::Top => most,
    };
    floor as u16
}

pub fn tier_prices(prices: Prices, rng: &mut Rng) -> [u8; 8] {
    let few = [0, rng.range(1, 20) as u8, 30, 60];
    let mut before = 0;
    TIER_CAPS.map(|cap| {
        let wish = match prices {
            Prices::Any => rng.range(0, u64::from(cap)) as u8,
            Prices::Few => rng.pick(&few),
            Prices::Zero => 0,
            Prices::Top => cap,
        };
        before = wish.min(cap).max(before);
        before
    })
}

pub fn pool_steps(prices: Prices, capacity: u16, rng: &mut Rng) -> Vec<(u8, u16)> {
    let count = rng.range(1, 8);
    let few = [0, rng.range(1, 30) as u8, 30, 60];
    let mut levels: Vec<u8> = (0..count)
        .map(|_| match prices {
            Prices::Any => rng.range(0, 60) as u8,
            Prices::Few => rng.pick(&few),
            Prices::Zero => 0,
            Prices::Top => 60,
        })
        .collect();
    levels.sort_unstable();
    let mut left = u64::from(10 * capacity);
    let whole = rng.percent(50);
    let mut steps = Vec::new();
    for (index, price) in levels.into_iter().enumerate() {
        let after = count - 1 - index as u64;
        let most = left - after;
        let power = if after == 0 && whole {
            most
        } else {
            rng.range(1, (most / (after + 1)).max(1))
        };
        left -= power;
        steps.push((price, power as u16));
    }
    steps
}

/// Plans, wants, clearings and readings of some periods; period 95 is left alone.
pub fn running(maker: &mut Maker, style: &Style, rng: &mut Rng) {
    let mut areas: Vec<u8> = maker.sellers.iter().map(|s| s.area).collect();
    areas.extend(maker.plants.iter().map(|plant| plant.1));
    areas.sort_unstable();
    areas.dedup();
    let other = rng.below(8) as u8;
    if areas.len() < 2 && !areas.contains(&other) && style.areas > 1 {
        areas.push(other);
    }
    if areas.is_empty() {
        areas.push(other);
    }
    let mut periods = numbers(PERIODS as u8 - 1, &[], rng);
    periods.truncate(style.periods as usize);
    let mut work: Vec<(usize, u8)> = Vec::new();
    if rng.percent(30) {
        // All periods' plans first, then all clearings of round 1, then all readings.
        for phase in 0..3 {
            rng.shuffle(&mut periods);
            work.extend(periods.iter().map(|&period| (usize::from(period), phase)));
        }
    } else {
        for &period in &periods {
            work.extend((0..3).map(|phase| (usize::from(period), phase)));
        }
    }
    for (period, phase) in work {
        match phase {
            0 => ahead(maker, style, &areas, period, rng),
            1 => intraday(maker, style, &areas, period, rng),
            _ => readings(maker, style, period, rng),
        }
    }
}

fn ahead(maker: &mut Maker, style: &Style, areas: &[u8], period: usize, rng: &mut Rng) {
    let wants_first = rng.percent(30);
    let wanting = rng.percent(style.ahead);
    if wants_first && wanting {
        wants(maker, style, areas, (0, period), rng);
    }
    for unit in maker.units() {
        if rng.percent(style.missing) {
            continue;
        }
        loop {
            let base = base(style, &unit, rng);
            maker.plan(0, unit.number, period, base);
            if !rng.percent(style.again.min(60)) {
                break;
            }
        }
    }
    if !wants_first && wanting {
        wants(maker, style, areas, (0, period), rng);
    }
    if !rng.percent(style.missing) {
        maker.clear(0, period);
    }
}

fn intraday(maker: &mut Maker, style: &Style, areas: &[u8], period: usize, rng: &mut Rng) {
    if !maker.cleared[0][period] {
        return;
    }
    for unit in maker.units() {
        if not_called(maker, &unit, period) && rng.percent(50) {
            loop {
                let base = base(style, &unit, rng);
                maker.plan(1, unit.number, period, base);
                if !rng.percent(style.again.min(60)) {
                    break;
                }
            }
        }
    }
    if rng.percent(style.intraday) {
        wants(maker, style, areas, (1, period), rng);
    }
    if !rng.percent(style.missing) {
        maker.clear(1, period);
    }
}

/// Whether a unit is surely not called in round 0.
fn not_called(maker: &Maker, unit: &Seller, period: usize) -> bool {
    let wants = &maker.wants[0][period];
    !unit.offered
        || wants[usize::from(unit.area)] > 0
        || wants.iter().all(|&want| want == 0)
        || Some(maker.bases[period][usize::from(unit.number)]) <= unit.floor
}

fn base(style: &Style, unit: &Seller, rng: &mut Rng) -> u16 {
    let most = u64::from(unit.most_power());
    let floor = u64::from(unit.floor.unwrap_or(0));
    let base = match style.bases {
        Bases::Any => rng.range(0, most),
        Bases::Top => most,
        Bases::AboveFloor if rng.percent(10) => rng.pick(&[0, most, floor]),
        Bases::AboveFloor => rng.range(floor, most),
        Bases::BelowFloor => rng.range(0, floor),
        Bases::Zero => 0,
    };
    base as u16
}

fn wants(maker: &mut Maker, style: &Style, areas: &[u8], at: (usize, usize), rng: &mut Rng) {
    let (round, period) = at;
    let mut buyers = areas.to_vec();
    rng.shuffle(&mut buyers);
    let most = if rng.percent(10) {
        buyers.len()
    } else {
        (buyers.len() - 1).max(1)
    };
    buyers.truncate(rng.range(1, most as u64) as usize);
    let sellers = maker
        .sellers
        .iter()
        .filter(|s| s.offered && !buyers.contains(&s.area));
    let power: u64 = sellers.map(|s| u64::from(s.most_power())).sum();
    let goal = power * rng.range(0, 11) / 10 / buyers.len() as u64;
    for &area in &buyers {
        loop {
            let want = match style.wants {
                Wants::Part => (goal * rng.range(50, 120) / 100).max(500),
                Wants::Short => MOST_WANT,
                Wants::Least => 500 * rng.range(1, 3),
                Wants::Equal => goal.max(500),
                Wants::Nothing => 0,
            };
            let want = (want / 500 * 500).min(MOST_WANT);
            maker.want(round, area, period, want as u32);
            if !rng.percent(style.again.min(60)) {
                break;
            }
            // Said again, perhaps with nothing wanted after all.
            if rng.percent(20) {
                maker.want(round, area, period, 0);
                break;
            }
        }
    }
}

fn readings(maker: &mut Maker, style: &Style, period: usize, rng: &mut Rng) {
    let common = rng.range(1, 300_000);
    let common = rng.pick(&[1, 2, 7, common]);
    if maker.cleared[1][period] {
        for unit in maker.units() {
            let base = u64::from(maker.bases[period][usize::from(unit.number)]);
            let floor = u64::from(unit.floor.unwrap_or(0));
            while let Some(energy) = reading(style.unit_readings, common, (base, floor), rng) {
                maker.read_unit(unit.number, period, energy);
                if !rng.percent(style.again.min(60)) {
                    break;
                }
            }
        }
    }
    for (plant, _) in maker.plants.clone() {
        while let Some(energy) = reading(style.plant_readings, common, (common, common), rng) {
            maker.read_plant(plant, period, energy);
            if !rng.percent(style.again.min(60)) {
                break;
            }
        }
    }
}

/// A reading, for a unit near its base or its floor.
fn reading(kind: Readings, common: u64, near: (u64, u64), rng: &mut Rng) -> Option<u32> {
    let (base, floor) = near;
    let any = rng.range(0, MOST_ENERGY);
    let energy = match kind {
        Readings::None => return None,
        Readings::Some if rng.percent(50) => return None,
        Readings::Some | Readings::Any => rng.pick(&[any, any, any / 10, any / 100, 0]),
        Readings::Zero => 0,
        Readings::Threshold => {
            let size = (floor / 2 + rng.range(0, 2)).saturating_sub(1);
            if rng.percent(50) {
                25 * floor + size
            } else {
                (25 * floor).saturating_sub(size)
            }
        }
        Readings::NearBase => {
            (25 * base).saturating_sub(rng.range(0, 5 * base)) + rng.range(0, 999)
        }
        Readings::Equal => common,
        Readings::Few => rng.pick(&[0, common, 2 * common, 3 * common]),
        Readings::Million => rng.pick(&[MOST_ENERGY, MOST_ENERGY, MOST_ENERGY - 1, 0]),
    };
    Some(energy.min(MOST_ENERGY) as u32)
}
