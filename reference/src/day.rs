//! The day: who is enrolled, what is offered, planned, wanted, cleared and read.
//!
//! Every call answers the number of the first check that fails, and then changes nothing.

use std::collections::BTreeMap;

use crate::clearing::{self, Curve, Outcome, PRICES};

pub const AREAS: usize = 8;
pub const PERIODS: usize = 96;
/// The highest number of a seller and of a plant.
const LAST_NUMBER: u8 = 63;
/// What each tier of a unit may cost at most.
const TIER_CAPS: [u8; 8] = [0, 30, 30, 40, 50, 60, 60, 60];
const MOST_ENERGY: u32 = 1_000_000;

/// A step of a pool's offer.
#[derive(Clone, Copy)]
pub struct Step {
    pub price: u8,
    pub power: u16,
}

pub struct Seller {
    pub area: u8,
    /// In megawatts.
    capacity: u16,
    kind: Kind,
}

enum Kind {
    Unit { floor: u16, tiers: Option<[u8; 8]> },
    Pool { steps: Option<Vec<Step>> },
}

/// What a period has taken in.
#[derive(Default)]
pub struct Period {
    /// The bases planned, by round and unit.
    bases: [BTreeMap<u8, u16>; 2],
    /// The wants, by round and area.
    pub wants: [[u32; AREAS]; 2],
    /// What each round brought, once it is cleared.
    pub outcomes: [Option<Outcome>; 2],
    unit_readings: BTreeMap<u8, u32>,
    plant_readings: BTreeMap<u8, u32>,
}

pub struct Day {
    /// The producers' share, in thousandths.
    pub share: u16,
    pub sellers: BTreeMap<u8, Seller>,
    /// The area of each plant.
    pub plants: BTreeMap<u8, u8>,
    pub periods: Vec<Period>,
}

fn check(holds: bool, number: u8) -> Result<(), u8> {
    if holds {
        Ok(())
    } else {
        Err(number)
    }
}

/// Whether no price is below the one before it.
fn rises(prices: impl IntoIterator<Item = u8>) -> bool {
    let prices: Vec<u8> = prices.into_iter().collect();
    prices.windows(2).all(|pair| pair[0] <= pair[1])
}

impl Seller {
    pub fn is_unit(&self) -> bool {
        matches!(self.kind, Kind::Unit { .. })
    }

    pub fn has_offer(&self) -> bool {
        match &self.kind {
            Kind::Unit { tiers, .. } => tiers.is_some(),
            Kind::Pool { steps } => steps.is_some(),
        }
    }

    /// Ten times the capacity: its power in tenths.
    fn most_power(&self) -> u32 {
        10 * u32::from(self.capacity)
    }

    /// Its curve in a round of a period; none without an offer.
    fn curve(&self, number: u8, period: &Period, round: usize) -> Option<Curve> {
        let powers = match &self.kind {
            Kind::Unit { floor, tiers } => {
                let tiers = tiers.as_ref()?;
                let base = period.base(round, number);
                std::array::from_fn(|price| {
                    let highest = tiers.iter().rposition(|&tier| usize::from(tier) <= price);
                    // Tier 0 ends at 7C, tier k at (7 - k)C.
                    let edge = (7 - highest.unwrap_or(0) as u64) * u64::from(self.capacity);
                    base.saturating_sub(edge.max(u64::from(*floor)))
                })
            }
            Kind::Pool { steps } => {
                let steps = steps.as_ref()?;
                let called = if round == 0 {
                    0
                } else {
                    period.call(0, number)
                };
                std::array::from_fn(|price| {
                    let reached = steps.iter().filter(|step| usize::from(step.price) <= price);
                    let power: u64 = reached.map(|step| u64::from(step.power)).sum();
                    power.saturating_sub(called)
                })
            }
        };
        Some(Curve {
            number,
            weight: u64::from(self.capacity),
            powers,
        })
    }
}

impl Period {
    /// The call of a seller in a round; 0 where the round is not cleared.
    pub fn call(&self, round: usize, seller: u8) -> u64 {
        self.outcomes[round]
            .as_ref()
            .map_or(0, |outcome| outcome.call(seller))
    }

    /// A unit's base in a round: as planned, or as it follows from the round before.
    fn base(&self, round: usize, unit: u8) -> u64 {
        match self.bases[round].get(&unit) {
            Some(&base) => u64::from(base),
            None if round == 0 => 0,
            None => self.base(0, unit) - self.call(0, unit),
        }
    }

    /// What a unit is to run at after both rounds.
    pub fn plan(&self, unit: u8) -> u64 {
        self.base(1, unit) - self.call(1, unit)
    }

    pub fn unit_reading(&self, unit: u8) -> u64 {
        match self.unit_readings.get(&unit) {
            Some(&energy) => u64::from(energy),
            None => 25 * self.plan(unit),
        }
    }

    pub fn plant_reading(&self, plant: u8) -> u64 {
        self.plant_readings
            .get(&plant)
            .map_or(0, |&energy| u64::from(energy))
    }
}

impl Day {
    pub fn new() -> Day {
        Day {
            share: 0,
            sellers: BTreeMap::new(),
            plants: BTreeMap::new(),
            periods: (0..PERIODS).map(|_| Period::default()).collect(),
        }
    }

    pub fn open(&mut self, share: u16) -> Result<(), u8> {
        check(share <= 1000, 1)?;
        self.share = share;
        Ok(())
    }

    pub fn enrol_unit(
        &mut self,
        seller: u8,
        area: u8,
        capacity: u16,
        floor: u16,
    ) -> Result<(), u8> {
        self.check_enrolment(seller, capacity)?;
        check(u32::from(floor) <= 10 * u32::from(capacity), 6)?;
        check(usize::from(area) < AREAS, 12)?;
        let kind = Kind::Unit { floor, tiers: None };
        self.sellers.insert(
            seller,
            Seller {
                area,
                capacity,
                kind,
            },
        );
        Ok(())
    }

    pub fn enrol_pool(&mut self, seller: u8, area: u8, capacity: u16) -> Result<(), u8> {
        self.check_enrolment(seller, capacity)?;
        check(usize::from(area) < AREAS, 12)?;
        let kind = Kind::Pool { steps: None };
        self.sellers.insert(
            seller,
            Seller {
                area,
                capacity,
                kind,
            },
        );
        Ok(())
    }

    fn check_enrolment(&self, seller: u8, capacity: u16) -> Result<(), u8> {
        check(seller <= LAST_NUMBER, 2)?;
        check(!self.sellers.contains_key(&seller), 3)?;
        check((1..=2000).contains(&capacity), 5)
    }

    pub fn enrol_plant(&mut self, plant: u8, area: u8) -> Result<(), u8> {
        check(usize::from(area) < AREAS, 12)?;
        check(plant <= LAST_NUMBER, 13)?;
        check(!self.plants.contains_key(&plant), 14)?;
        self.plants.insert(plant, area);
        Ok(())
    }

    pub fn offer_unit(&mut self, seller: u8, prices: [u8; 8]) -> Result<(), u8> {
        check(seller <= LAST_NUMBER, 2)?;
        let Some(Seller {
            kind: Kind::Unit { tiers, .. },
            ..
        }) = self.sellers.get_mut(&seller)
        else {
            return Err(4);
        };
        check(
            prices
                .iter()
                .zip(TIER_CAPS)
                .all(|(&price, cap)| price <= cap),
            9,
        )?;
        check(rises(prices), 10)?;
        *tiers = Some(prices);
        Ok(())
    }

    pub fn offer_pool(&mut self, seller: u8, offer: Vec<Step>) -> Result<(), u8> {
        check(seller <= LAST_NUMBER, 2)?;
        let Some(Seller {
            capacity,
            kind: Kind::Pool { steps },
            ..
        }) = self.sellers.get_mut(&seller)
        else {
            return Err(4);
        };
        check((1..=8).contains(&offer.len()), 8)?;
        check(offer.iter().all(|step| usize::from(step.price) < PRICES), 9)?;
        check(rises(offer.iter().map(|step| step.price)), 10)?;
        let together: u32 = offer.iter().map(|step| u32::from(step.power)).sum();
        let none_empty = offer.iter().all(|step| step.power > 0);
        check(none_empty && together <= 10 * u32::from(*capacity), 11)?;
        *steps = Some(offer);
        Ok(())
    }

    /// The unit of that number; 2 or 4 where there is none.
    fn unit(&self, seller: u8) -> Result<&Seller, u8> {
        check(seller <= LAST_NUMBER, 2)?;
        self.sellers
            .get(&seller)
            .filter(|found| found.is_unit())
            .ok_or(4)
    }

    fn is_cleared(&self, round: u8, period: u8) -> bool {
        self.periods[usize::from(period)].outcomes[usize::from(round)].is_some()
    }

    /// Whether a round still takes plans, wants and its clearing.
    fn check_open(&self, round: u8, period: u8) -> Result<(), u8> {
        check(!self.is_cleared(round, period), 20)?;
        check(round == 0 || self.is_cleared(0, period), 21)
    }

    pub fn plan(&mut self, round: u8, seller: u8, period: u8, base: u16) -> Result<(), u8> {
        let most = self.unit(seller)?.most_power();
        check(round <= 1, 16)?;
        check(usize::from(period) < PERIODS, 17)?;
        check(u32::from(base) <= most, 18)?;
        self.check_open(round, period)?;
        let entry = &mut self.periods[usize::from(period)];
        check(round == 0 || entry.call(0, seller) == 0, 22)?;
        entry.bases[usize::from(round)].insert(seller, base);
        Ok(())
    }

    pub fn want(&mut self, round: u8, area: u8, period: u8, power: u32) -> Result<(), u8> {
        check(usize::from(area) < AREAS, 12)?;
        check(round <= 1, 16)?;
        check(usize::from(period) < PERIODS, 17)?;
        check(power % 500 == 0 && power <= 200_000, 19)?;
        self.check_open(round, period)?;
        self.periods[usize::from(period)].wants[usize::from(round)][usize::from(area)] = power;
        Ok(())
    }

    pub fn clear(&mut self, round: u8, period: u8) -> Result<(), u8> {
        check(round <= 1, 16)?;
        check(usize::from(period) < PERIODS, 17)?;
        self.check_open(round, period)?;
        let outcome = self.clear_round(usize::from(round), &self.periods[usize::from(period)]);
        self.periods[usize::from(period)].outcomes[usize::from(round)] = Some(outcome);
        Ok(())
    }

    /// Clears a round among the sellers with an offer whose area wants nothing there.
    fn clear_round(&self, round: usize, period: &Period) -> Outcome {
        let wants = &period.wants[round];
        let sellers: Vec<Curve> = self
            .sellers
            .iter()
            .filter(|(_, seller)| wants[usize::from(seller.area)] == 0)
            .filter_map(|(&number, seller)| seller.curve(number, period, round))
            .collect();
        let wanted = wants.iter().map(|&want| u64::from(want)).sum();
        clearing::clear(&sellers, wanted)
    }

    pub fn read_unit(&mut self, seller: u8, period: u8, energy: u32) -> Result<(), u8> {
        self.unit(seller)?;
        check(usize::from(period) < PERIODS, 17)?;
        check(self.is_cleared(1, period), 21)?;
        check(energy <= MOST_ENERGY, 23)?;
        self.periods[usize::from(period)]
            .unit_readings
            .insert(seller, energy);
        Ok(())
    }

    pub fn read_plant(&mut self, plant: u8, period: u8, energy: u32) -> Result<(), u8> {
        check(plant <= LAST_NUMBER, 13)?;
        check(self.plants.contains_key(&plant), 15)?;
        check(usize::from(period) < PERIODS, 17)?;
        check(energy <= MOST_ENERGY, 23)?;
        self.periods[usize::from(period)]
            .plant_readings
            .insert(plant, energy);
        Ok(())
    }
}
