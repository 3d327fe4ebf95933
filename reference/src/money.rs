//! The money of a period: fees, charges, penalties and refunds, all in fen.

use std::collections::BTreeMap;

use crate::day::{Day, Period, AREAS};
use crate::share::share_out;

#[derive(Default)]
pub struct AreaBill {
    pub charge: u64,
    /// The users' part of the charge.
    pub users: u64,
    /// What no plant carries of the producers' part.
    pub uncarried: u64,
    /// What no unit gets of the area's penalties.
    pub uncarried_refund: u64,
}

#[derive(Default)]
pub struct UnitBill {
    pub penalty: u64,
    pub refund: u64,
}

#[derive(Default)]
pub struct Bill {
    pub areas: [AreaBill; AREAS],
    pub plants: BTreeMap<u8, u64>,
    pub units: BTreeMap<u8, UnitBill>,
}

/// The sums of money that the total line shows.
#[derive(Default)]
pub struct Totals {
    pub fees: u64,
    pub charges: u64,
    pub penalties: u64,
    pub refunds: u64,
}

/// The price of `power` tenths over a quarter hour.
pub fn cost(price: u64, power: u64) -> u64 {
    25 * price * power
}

pub fn bill(day: &Day, period: &Period) -> Bill {
    let mut bill = Bill::default();
    charge_areas(period, &mut bill);
    split_charges(day, period, &mut bill);
    let units = day.sellers.iter().filter(|(_, seller)| seller.is_unit());
    for (&unit, _) in units {
        let penalty = penalty(period, unit);
        bill.units.insert(unit, UnitBill { penalty, refund: 0 });
    }
    refund_penalties(day, period, &mut bill);
    bill
}

/// Shares what each round brought out among the areas and charges them for it.
fn charge_areas(period: &Period, bill: &mut Bill) {
    for (outcome, wants) in period.outcomes.iter().zip(&period.wants) {
        let Some(outcome) = outcome else { continue };
        let Some(price) = outcome.price else { continue };
        let received = share_out(outcome.brought, &wants.map(u64::from));
        for (area, power) in bill.areas.iter_mut().zip(received.parts) {
            area.charge += cost(price, power);
        }
    }
}

/// Splits each charge once, and its producers' part among the area's plants.
fn split_charges(day: &Day, period: &Period, bill: &mut Bill) {
    for (number, area) in bill.areas.iter_mut().enumerate() {
        let producers = u128::from(day.share) * u128::from(area.charge) / 1000;
        let producers = u64::try_from(producers).expect("the share is at most the whole");
        area.users = area.charge - producers;
        let plants: Vec<u8> = day
            .plants
            .iter()
            .filter(|(_, &home)| usize::from(home) == number)
            .map(|(&plant, _)| plant)
            .collect();
        let weights: Vec<u64> = plants
            .iter()
            .map(|&plant| period.plant_reading(plant))
            .collect();
        let shared = share_out(producers, &weights);
        area.uncarried = shared.uncarried;
        bill.plants.extend(plants.into_iter().zip(shared.parts));
    }
}

/// What a called unit pays for running otherwise than planned.
fn penalty(period: &Period, unit: u8) -> u64 {
    if period.call(0, unit) == 0 && period.call(1, unit) == 0 {
        return 0;
    }
    let plan = period.plan(unit);
    let size = period.unit_reading(unit).abs_diff(25 * plan);
    if 2 * size > plan {
        30 * size - 15 * plan
    } else {
        0
    }
}

/// Shares each area's penalties out among its units that have an offer.
fn refund_penalties(day: &Day, period: &Period, bill: &mut Bill) {
    for (number, area) in bill.areas.iter_mut().enumerate() {
        let home_units = || {
            let units = day.sellers.iter().filter(|(_, seller)| seller.is_unit());
            units.filter(move |(_, seller)| usize::from(seller.area) == number)
        };
        let penalties = home_units().map(|(unit, _)| bill.units[unit].penalty).sum();
        let carriers: Vec<u8> = home_units()
            .filter(|(_, seller)| seller.has_offer())
            .map(|(&unit, _)| unit)
            .collect();
        let weights: Vec<u64> = carriers
            .iter()
            .map(|&unit| period.unit_reading(unit))
            .collect();
        let shared = share_out(penalties, &weights);
        area.uncarried_refund = shared.uncarried;
        for (unit, refund) in carriers.into_iter().zip(shared.parts) {
            bill.units.entry(unit).or_default().refund = refund;
        }
    }
}

impl Totals {
    /// Adds a period's money.
    pub fn add(&mut self, period: &Period, bill: &Bill) {
        for outcome in period.outcomes.iter().flatten() {
            let price = outcome.price.unwrap_or(0);
            self.fees += outcome
                .calls
                .iter()
                .map(|&(_, call)| cost(price, call))
                .sum::<u64>();
        }
        self.charges += bill.plants.values().sum::<u64>();
        for area in &bill.areas {
            self.charges += area.users + area.uncarried;
            self.refunds += area.uncarried_refund;
        }
        for unit in bill.units.values() {
            self.penalties += unit.penalty;
            self.refunds += unit.refund;
        }
    }
}
