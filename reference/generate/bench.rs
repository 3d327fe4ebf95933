//! Two days to take the time of.

use crate::good;
use crate::maker::{Maker, PERIODS};
use crate::rng::Rng;
use crate::style::Prices;

/// 64 pools that all their power is wanted of, in every period.
pub fn worst() -> Maker {
    let mut maker = Maker::new();
    maker.open(600);
    for pool in 0..64 {
        maker.enrol_pool(pool, 1, 2000);
        maker.offer_pool(pool, &[(30, 20_000)]);
    }
    maker.close_offers();
    for period in 0..PERIODS {
        // 64 × 20,000 = 1,280,000 = 6 × 200,000 + 80,000.
        maker.want(0, 0, period, 80_000);
        for area in 2..8 {
            maker.want(0, area, period, 200_000);
        }
        maker.clear(0, period);
        maker.clear(1, period);
    }
    maker.close_day();
    maker
}

/// A day with everything in it, as far as a file has room.
pub fn ordinary() -> Maker {
    let mut rng = Rng::for_file(0, 0);
    let mut maker = Maker::new();
    maker.open(600);
    for seller in 0..64 {
        let area = seller % 8;
        let capacity = rng.range(100, 1000) as u16;
        if seller < 48 {
            maker.enrol_unit(seller, area, capacity, 3 * capacity);
            maker.offer_unit(seller, good::tier_prices(Prices::Any, &mut rng));
        } else {
            maker.enrol_pool(seller, area, capacity);
            let steps = good::pool_steps(Prices::Any, capacity, &mut rng);
            maker.offer_pool(seller, &steps);
        }
    }
    for plant in 0..64 {
        maker.enrol_plant(plant, plant % 8);
    }
    maker.close_offers();
    let units = maker.units();
    for period in 0..PERIODS {
        for unit in &units {
            let base = rng.range(6 * u64::from(unit.capacity), u64::from(unit.most_power()));
            maker.plan(0, unit.number, period, base as u16);
        }
        for area in 0..4 {
            maker.want(0, area, period, 500 * rng.range(4, 60) as u32);
        }
        maker.clear(0, period);
        for area in [1, 5] {
            maker.want(1, area, period, 500 * rng.range(1, 30) as u32);
        }
        maker.clear(1, period);
    }
    // The room that is left goes to readings, spread over the periods.
    for number in 0..64 {
        for period in 0..PERIODS {
            let plant = (number + period as u8) % 64;
            maker.read_plant(plant, period, rng.range(0, 200_000) as u32);
            let unit = units[(usize::from(number) + period) % units.len()];
            let base = u64::from(maker.bases[period][usize::from(unit.number)]);
            let energy = 25 * base * rng.range(60, 105) / 100;
            maker.read_unit(unit.number, period, energy as u32);
        }
    }
    maker.close_day();
    maker
}
