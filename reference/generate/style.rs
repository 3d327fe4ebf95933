//! What a good day is like.

use crate::rng::Rng;

pub const TIER_CAPS: [u8; 8] = [0, 30, 30, 40, 50, 60, 60, 60];

#[derive(Clone, Copy)]
pub enum Capacities {
    Any,
    Middle,
    Small,
    Equal,
    Proportional,
    Extreme,
}

#[derive(Clone, Copy)]
pub enum Floors {
    Zero,
    Low,
    Any,
    Top,
}

#[derive(Clone, Copy)]
pub enum Prices {
    Any,
    Few,
    Zero,
    Top,
}

#[derive(Clone, Copy)]
pub enum Bases {
    Any,
    Top,
    AboveFloor,
    BelowFloor,
    Zero,
}

#[derive(Clone, Copy)]
pub enum Wants {
    /// Some part of what the sellers have, or a little more.
    Part,
    Short,
    Least,
    Equal,
    Nothing,
}

#[derive(Clone, Copy)]
pub enum Readings {
    None,
    Some,
    Zero,
    /// For a unit at its floor: about the threshold of the penalty.
    Threshold,
    NearBase,
    Equal,
    Few,
    Million,
    Any,
}

pub struct Style {
    pub share: u16,
    pub units: u64,
    pub pools: u64,
    pub plants: u64,
    pub areas: u64,
    pub periods: u64,
    pub capacities: Capacities,
    pub floors: Floors,
    pub prices: Prices,
    pub bases: Bases,
    pub wants: Wants,
    pub unit_readings: Readings,
    pub plant_readings: Readings,
    /// The chance, in percent, that a thing is said again with another figure.
    pub again: u64,
    /// The chance, in percent, that an offer, a plan or a clearing is left out.
    pub missing: u64,
    /// The chance, in percent, of wants in round 1, and in round 0.
    pub intraday: u64,
    pub ahead: u64,
}

impl Style {
    pub fn any(rng: &mut Rng) -> Style {
        use Readings::*;
        Style {
            share: share(rng),
            units: rng.range(0, 5),
            pools: rng.range(0, 3),
            plants: rng.range(0, 5),
            areas: rng.range(2, 5),
            periods: rng.range(1, 3),
            capacities: rng.pick(&[
                Capacities::Any,
                Capacities::Middle,
                Capacities::Middle,
                Capacities::Equal,
                Capacities::Proportional,
                Capacities::Extreme,
            ]),
            floors: rng.pick(&[Floors::Zero, Floors::Low, Floors::Low, Floors::Any]),
            prices: rng.pick(&[
                Prices::Any,
                Prices::Any,
                Prices::Few,
                Prices::Zero,
                Prices::Top,
            ]),
            bases: rng.pick(&[Bases::Any, Bases::Top, Bases::AboveFloor, Bases::AboveFloor]),
            wants: rng.pick(&[
                Wants::Part,
                Wants::Part,
                Wants::Part,
                Wants::Least,
                Wants::Equal,
            ]),
            unit_readings: rng.pick(&[None, Some, Zero, Threshold, NearBase, NearBase, Any]),
            plant_readings: rng.pick(&[None, Some, Zero, Equal, Few, Any, Any]),
            again: rng.pick(&[0, 0, 10, 40]),
            missing: rng.pick(&[0, 5, 20]),
            intraday: rng.pick(&[0, 50, 100]),
            ahead: rng.pick(&[50, 100, 100]),
        }
    }

    /// Units of middle size that can be called, and someone who wants their power.
    fn lively(rng: &mut Rng) -> Style {
        Style {
            units: rng.range(2, 6),
            capacities: Capacities::Middle,
            floors: Floors::Low,
            bases: Bases::AboveFloor,
            missing: 0,
            ..Style::any(rng)
        }
    }
}

fn share(rng: &mut Rng) -> u16 {
    let any = rng.range(0, 1000) as u16;
    rng.pick(&[0, 1, 333, 500, 600, 999, 1000, any, any, any])
}

/// How many themes `theme` knows.
pub const THEMES: u64 = 13;

/// The style of a theme; each aims at some kind of line or rule.
pub fn theme(number: u64, rng: &mut Rng) -> Style {
    let mut style = Style::lively(rng);
    match number {
        // Shortage, with readings about the threshold.
        0 => {
            style.wants = Wants::Short;
            style.unit_readings = Readings::Threshold;
            style.intraday = 50;
        }
        // Nothing to be had.
        1 => {
            style.bases = rng.pick(&[Bases::Zero, Bases::BelowFloor]);
            style.pools = 0;
            style.areas = rng.range(1, 4);
            style.wants = rng.pick(&[Wants::Least, Wants::Part, Wants::Short]);
        }
        // Ties of price, weight and remainder.
        2 => {
            style.capacities = Capacities::Equal;
            style.prices = rng.pick(&[Prices::Few, Prices::Zero, Prices::Top]);
            style.plant_readings = Readings::Equal;
            style.unit_readings = Readings::Equal;
            style.wants = rng.pick(&[Wants::Part, Wants::Equal]);
        }
        3 => {
            style.capacities = Capacities::Proportional;
            style.prices = Prices::Few;
            style.plant_readings = Readings::Few;
        }
        // Charges and refunds that nobody carries.
        4 => {
            style.prices = rng.pick(&[Prices::Top, Prices::Any]);
            style.plant_readings = rng.pick(&[Readings::None, Readings::Zero]);
            style.unit_readings = Readings::Zero;
            style.wants = rng.pick(&[Wants::Short, Wants::Part]);
            style.share = rng.pick(&[1, 500, 1000]);
        }
        // Both rounds, with other buyers in each.
        5 => {
            style.intraday = 100;
            style.ahead = 100;
            style.areas = rng.range(3, 8);
            style.units = rng.range(4, 10);
            style.pools = rng.range(1, 4);
        }
        // Everything said more than once.
        6 => {
            style.again = 80;
            style.intraday = 70;
        }
        // Pools alone, some with equal prices.
        7 => {
            style.units = 0;
            style.pools = rng.range(1, 8);
            style.prices = rng.pick(&[Prices::Few, Prices::Any, Prices::Top]);
            style.intraday = 70;
            style.capacities = rng.pick(&[Capacities::Middle, Capacities::Small, Capacities::Any]);
        }
        // The extremes of the numbers.
        8 => {
            style.capacities = Capacities::Extreme;
            style.floors = rng.pick(&[Floors::Zero, Floors::Top, Floors::Any]);
            style.bases = Bases::Top;
            style.share = rng.pick(&[0, 1, 999, 1000]);
            style.prices = rng.pick(&[Prices::Top, Prices::Zero, Prices::Any]);
        }
        // Many sellers and plants.
        9 => {
            style.units = rng.range(20, 48);
            style.pools = rng.range(4, 64 - style.units);
            style.plants = rng.range(20, 64);
            style.areas = rng.range(3, 8);
            style.periods = rng.range(1, 2);
            style.capacities = rng.pick(&[
                Capacities::Middle,
                Capacities::Equal,
                Capacities::Proportional,
                Capacities::Any,
            ]);
        }
        // Great penalties.
        10 => {
            style.unit_readings = Readings::Million;
            style.plant_readings = rng.pick(&[Readings::Million, Readings::Any]);
            style.wants = rng.pick(&[Wants::Part, Wants::Short]);
        }
        // Readings that are not given.
        11 => {
            style.unit_readings = Readings::Some;
            style.plant_readings = Readings::Some;
            style.intraday = 60;
            style.missing = 15;
        }
        // Days with next to nothing in them.
        _ => {
            style.units = rng.range(0, 1);
            style.pools = rng.range(0, 1);
            style.plants = rng.range(0, 1);
            style.areas = rng.range(1, 2);
            style.periods = rng.range(0, 2);
            style.wants = rng.pick(&[Wants::Nothing, Wants::Least, Wants::Part]);
            style.missing = 40;
        }
    }
    style
}

/// A day of many periods, as long as the file may be or shorter.
pub fn large(rng: &mut Rng) -> Style {
    let units = rng.range(10, 50);
    Style {
        units,
        pools: rng.range(2, 64 - units),
        plants: rng.range(10, 64),
        areas: rng.range(4, 8),
        periods: rng.range(12, 95),
        intraday: 60,
        ahead: 90,
        again: 5,
        missing: 5,
        wants: rng.pick(&[Wants::Part, Wants::Part, Wants::Short]),
        ..Style::lively(rng)
    }
}
