//! Records aimed at a refusal, after a good beginning.

use crate::good;
use crate::maker::{pool_body, Maker, Seller, PERIODS};
use crate::rng::Rng;
use crate::style::{Prices, Style, TIER_CAPS};

const OPENING: [&[u8; 2]; 6] = [b"EU", b"EP", b"EW", b"OU", b"OP", b"CO"];
const RUNNING: [&[u8; 2]; 6] = [b"BA", b"WA", b"CL", b"RU", b"RW", b"CD"];

/// The numbers by which a day refuses a call, each with the marks that can be refused so.
const AIMS: [(u8, &[&[u8; 2]]); 22] = [
    (1, &[b"DA"]),
    (2, &[b"EU", b"EP", b"OU", b"OP", b"BA", b"RU"]),
    (3, &[b"EU", b"EP"]),
    (4, &[b"OU", b"OP", b"BA", b"RU"]),
    (5, &[b"EU", b"EP"]),
    (6, &[b"EU"]),
    (8, &[b"OP"]),
    (9, &[b"OU", b"OP"]),
    (10, &[b"OU", b"OP"]),
    (11, &[b"OP"]),
    (12, &[b"EU", b"EP", b"EW", b"WA"]),
    (13, &[b"EW", b"RW"]),
    (14, &[b"EW"]),
    (15, &[b"RW"]),
    (16, &[b"BA", b"WA", b"CL"]),
    (17, &[b"BA", b"WA", b"CL", b"RU", b"RW"]),
    (18, &[b"BA"]),
    (19, &[b"WA"]),
    (20, &[b"BA", b"WA", b"CL"]),
    (21, &[b"BA", b"WA", b"CL", b"RU"]),
    (22, &[b"BA"]),
    (23, &[b"RU", b"RW"]),
];

/// One way to be refused: a mark, the checks that fail, and which way they fail.
struct Shot {
    mark: &'static [u8; 2],
    faults: Vec<u8>,
    variant: u64,
}

/// How many ways there are for a record to fail a check alone.
fn variants(number: u8, mark: &[u8; 2]) -> u64 {
    match (number, mark) {
        (9, b"OU") | (19, _) => 8,
        (8, _) => 5,
        (1 | 6 | 11 | 14 | 18, _) => 4,
        (5 | 10 | 15 | 22, _) => 3,
        (21, b"BA" | b"WA" | b"CL") => 1,
        _ => 2,
    }
}

/// Every number from every mark in every way, and every two checks that follow one another.
fn shots() -> Vec<Shot> {
    let mut shots = Vec::new();
    for (number, marks) in AIMS {
        for &mark in marks {
            let faults = vec![number];
            shots.extend((0..variants(number, mark)).map(|variant| Shot {
                mark,
                faults: faults.clone(),
                variant,
            }));
            let next = AIMS
                .iter()
                .find(|(other, marks)| meets(number, *other) && marks.contains(&mark));
            if let Some((other, _)) = next {
                shots.push(Shot {
                    mark,
                    faults: vec![number, *other],
                    variant: 0,
                });
            }
        }
    }
    // Mixed, so that the first few files have something of everything.
    Rng::for_file(0, 0).shuffle(&mut shots);
    shots
}

/// Whether a call can fail the check `later` too where it fails `number`.
fn meets(number: u8, later: u8) -> bool {
    later > number
        && !matches!(
            (number, later),
            (2, 3 | 4) | (13, 14 | 15) | (20, 21) | (21, 22)
        )
}

/// A file aimed at one refusal, in later rounds often with others that would hit after it.
pub fn aimed(rank: u64, rng: &mut Rng) -> Vec<u8> {
    let shots = shots();
    let count = shots.len() as u64;
    let Shot {
        mark,
        faults,
        variant,
    } = &shots[(rank % count) as usize];
    let mut faults = faults.clone();
    if rank >= count && rng.percent(60) {
        let later = AIMS.iter().filter(|(other, marks)| {
            meets(faults[0], *other) && marks.contains(mark) && !faults.contains(other)
        });
        let later: Vec<u8> = later
            .map(|(other, _)| *other)
            .filter(|_| rng.percent(60))
            .collect();
        faults.extend(later);
    }
    let mut maker = prefix(mark, rng);
    let record = record(&mut maker, mark, &faults, *variant, rng);
    maker.raw(&record);
    tail(&mut maker, rng);
    maker.bytes
}

/// A day up to where records with fields of all sorts follow, good and bad ones.
pub fn wild(rng: &mut Rng) -> Vec<u8> {
    let opening = rng.percent(50);
    let marks = if opening {
        &OPENING[..5]
    } else {
        &RUNNING[..5]
    };
    let first = rng.pick(marks);
    let mut maker = prefix(first, rng);
    let chance = rng.pick(&[2, 5, 15, 40]);
    for _ in 0..rng.range(1, 12) {
        let mark = rng.pick(marks);
        let numbers = AIMS.iter().filter(|(_, marks)| marks.contains(&mark));
        let faults: Vec<u8> = numbers
            .map(|(number, _)| *number)
            .filter(|_| rng.percent(chance))
            .collect();
        let variant = rng.next();
        let record = record(&mut maker, mark, &faults, variant, rng);
        maker.raw(&record);
    }
    if opening {
        maker.raw(b"CO");
    }
    maker.close_day();
    maker.bytes
}

pub fn few(rng: &mut Rng) -> Style {
    Style {
        units: rng.range(0, 4),
        pools: rng.range(0, 2),
        ..Style::any(rng)
    }
}

/// A good beginning in which a record of that mark is at its stage.
///
/// It has a unit, a pool and a plant at least, and stops somewhere.
pub fn prefix(mark: &[u8; 2], rng: &mut Rng) -> Maker {
    let mut maker = Maker::new();
    if mark == b"DA" {
        return maker;
    }
    let style = few(rng);
    maker.open(style.share);
    let unit = rng.below(64) as u8;
    let pool = (unit + 1 + rng.below(63) as u8) % 64;
    let capacity = rng.range(1, 200) as u16;
    maker.enrol_unit(unit, rng.below(8) as u8, capacity, rng.range(0, 9) as u16);
    maker.enrol_pool(pool, rng.below(8) as u8, rng.pick(&[1, 7, 300, 2000]));
    maker.enrol_plant(rng.below(64) as u8, rng.below(8) as u8);
    if OPENING.contains(&mark) {
        maker.limit = maker.places.len() + rng.below(20) as usize;
        good::opening(&mut maker, &style, rng);
    } else {
        maker.offer_unit(unit, good::tier_prices(style.prices, rng));
        good::opening(&mut maker, &style, rng);
        maker.close_offers();
        maker.limit = maker.places.len() + rng.below(30) as usize;
        good::running(&mut maker, &style, rng);
    }
    maker.limit = usize::MAX;
    maker
}

pub fn any_mark(rng: &mut Rng) -> &'static [u8; 2] {
    match rng.below(13) {
        0 => b"DA",
        1..=6 => rng.pick(&OPENING),
        _ => rng.pick(&RUNNING),
    }
}

/// What follows a record that should be refused; it should not matter.
pub fn tail(maker: &mut Maker, rng: &mut Rng) {
    match rng.below(5) {
        0 => {}
        1 => maker.raw(b"CD"),
        2 => maker.raw(b"COCD"),
        3 => {
            let more: Vec<u8> = (0..rng.range(1, 9)).map(|_| rng.byte()).collect();
            maker.raw(&more);
        }
        _ => {
            let mark = any_mark(rng);
            maker.raw(mark);
        }
    }
}

/// A record whose fields fail the checks `faults` and pass the others, as far as that can be.
fn record(
    maker: &mut Maker,
    mark: &[u8; 2],
    faults: &[u8],
    variant: u64,
    rng: &mut Rng,
) -> Vec<u8> {
    let has = |number: u8| faults.contains(&number);
    let mut bytes = mark.to_vec();
    match mark {
        b"DA" => {
            let share = if has(1) {
                turn(&[1001, 1024, 65_535], variant)
            } else {
                1000
            };
            bytes.extend(u16::to_be_bytes(share));
        }
        b"EU" | b"EP" => {
            let capacity = if has(5) {
                turn(&[2001, 0, 65_535], variant)
            } else {
                rng.pick(&[1, 50, 2000])
            };
            let most = 10 * u32::from(capacity);
            let floor = if has(6) {
                turn(&[most + 1, 65_535, most + 2, most + 1], variant)
            } else {
                rng.pick(&[0, most / 2, most])
            };
            bytes.push(newcomer(maker, faults, variant, rng));
            bytes.push(area(has(12), variant, rng));
            bytes.extend(u16::to_be_bytes(capacity));
            if mark == b"EU" {
                bytes.extend((floor.min(65_535) as u16).to_be_bytes());
            }
        }
        b"EW" => {
            let taken: Vec<u8> = maker.plants.iter().map(|plant| plant.0).collect();
            bytes.push(match () {
                () if has(13) => beyond(63, variant, rng),
                () if has(14) => rng.pick(&taken),
                () => free_number(&taken, rng),
            });
            bytes.push(area(has(12), variant, rng));
        }
        b"OU" => {
            bytes.push(seller(maker, true, faults, variant, rng).number);
            bytes.extend(tiers(has(9), has(10), variant, rng));
        }
        b"OP" => {
            let seller = seller(maker, false, faults, variant, rng);
            let steps = steps(seller.capacity, faults, variant, rng);
            bytes.extend(pool_body(seller.number, &steps));
        }
        b"BA" => {
            let mut unit = seller(maker, true, faults, variant, rng);
            let mut at = None;
            if has(22) {
                at = called_unit(maker, &mut unit, has(20), rng);
            }
            let (round, period) = match at {
                Some(period) => spoilt(1, period, faults, variant, rng),
                None => slot(maker, faults, variant, rng),
            };
            let most = unit.most_power();
            let base = if has(18) {
                turn(&[most + 1, 65_535, most + 1, most + 2], variant)
            } else {
                rng.pick(&[0, most / 2, most])
            };
            bytes.extend([round, unit.number, period]);
            bytes.extend(base.to_be_bytes());
        }
        b"WA" => {
            let (round, period) = slot(maker, faults, variant, rng);
            let wrong = [200_500, 100, 499, 501, 200_001, 4_294_967_000, 1, u32::MAX];
            let power = if has(19) {
                turn(&wrong, variant)
            } else {
                rng.pick(&[0, 500, 199_500, 200_000])
            };
            bytes.extend([round, area(has(12), variant, rng), period]);
            bytes.extend(power.to_be_bytes());
        }
        b"CL" => {
            let (round, period) = slot(maker, faults, variant, rng);
            bytes.extend([round, period]);
        }
        b"RU" => {
            let unit = seller(maker, true, faults, variant, rng);
            let period = match () {
                () if has(17) => beyond(95, variant, rng),
                () if has(21) && variant % 2 == 1 => half_cleared(maker, rng),
                () if has(21) => open_period(maker, 0, rng),
                () => cleared_period(maker, 1, rng),
            };
            bytes.extend([unit.number, period]);
            bytes.extend(energy(has(23), variant, rng).to_be_bytes());
        }
        b"RW" => {
            let taken: Vec<u8> = maker.plants.iter().map(|plant| plant.0).collect();
            bytes.push(match () {
                () if has(13) => beyond(63, variant, rng),
                () if has(15) => free_number(&taken, rng),
                () => rng.pick(&taken),
            });
            bytes.push(if has(17) {
                beyond(95, variant, rng)
            } else {
                rng.pick(&[0, 50, 95])
            });
            bytes.extend(energy(has(23), variant, rng).to_be_bytes());
        }
        _ => {}
    }
    bytes
}

/// The item whose turn it is.
fn turn<T: Copy>(items: &[T], variant: u64) -> T {
    items[(variant % items.len() as u64) as usize]
}

/// A number above `last`: the next one, or any.
fn beyond(last: u8, variant: u64, rng: &mut Rng) -> u8 {
    let any = rng.range(u64::from(last) + 1, 255) as u8;
    if variant % 2 == 0 {
        last + 1
    } else {
        rng.pick(&[any, any, 255])
    }
}

fn area(wrong: bool, variant: u64, rng: &mut Rng) -> u8 {
    if wrong {
        beyond(7, variant, rng)
    } else {
        rng.below(8) as u8
    }
}

fn energy(wrong: bool, variant: u64, rng: &mut Rng) -> u32 {
    if wrong {
        turn(&[1_000_001, u32::MAX, 1_000_001, 16_777_216], variant)
    } else {
        rng.pick(&[0, 1, 999_999, 1_000_000])
    }
}

fn free_number(taken: &[u8], rng: &mut Rng) -> u8 {
    let free: Vec<u8> = (0..64).filter(|number| !taken.contains(number)).collect();
    let (Some(&first), Some(&last)) = (free.first(), free.last()) else {
        return 0;
    };
    let any = rng.pick(&free);
    rng.pick(&[first, last, any, any])
}

/// A seller's number for an enrolment.
fn newcomer(maker: &Maker, faults: &[u8], variant: u64, rng: &mut Rng) -> u8 {
    if faults.contains(&2) {
        return beyond(63, variant, rng);
    }
    if faults.contains(&3) {
        return rng
            .pick(&if variant % 2 == 0 {
                maker.units()
            } else {
                maker.pools()
            })
            .number;
    }
    let taken: Vec<u8> = maker.sellers.iter().map(|s| s.number).collect();
    free_number(&taken, rng)
}

/// A seller for an offer, a plan or a reading: of the kind meant, of the other, or of none.
fn seller(maker: &Maker, unit: bool, faults: &[u8], variant: u64, rng: &mut Rng) -> Seller {
    let (mut right, mut wrong) = (maker.units(), maker.pools());
    if !unit {
        std::mem::swap(&mut right, &mut wrong);
    }
    let mut seller = rng.pick(&right);
    if faults.contains(&2) {
        seller.number = beyond(63, variant, rng);
    } else if faults.contains(&4) {
        let taken: Vec<u8> = maker.sellers.iter().map(|s| s.number).collect();
        let other = rng.pick(&wrong).number;
        seller.number = if variant % 2 == 0 {
            other
        } else {
            free_number(&taken, rng)
        };
    }
    seller
}

fn tiers(above: bool, falls: bool, variant: u64, rng: &mut Rng) -> [u8; 8] {
    let style = rng.pick(&[Prices::Any, Prices::Few, Prices::Top, Prices::Zero]);
    let mut prices = good::tier_prices(style, rng);
    if falls {
        let tier = rng.range(1, 6) as usize;
        prices[tier] = rng.range(1, u64::from(TIER_CAPS[tier])) as u8;
        prices[tier + 1] = prices[tier] - 1;
    }
    if above {
        let tier = (variant % 8) as usize;
        let any = rng.range(u64::from(TIER_CAPS[tier]) + 1, 255) as u8;
        let least = TIER_CAPS[tier] + 1;
        prices[tier] = if variant < 8 {
            least
        } else {
            rng.pick(&[least, any])
        };
        if !falls {
            // Otherwise rising, so that nothing but the cap is wrong.
            for later in tier + 1..8 {
                prices[later] = prices[later].max(prices[tier]).min(TIER_CAPS[later]);
            }
        }
    }
    prices
}

fn steps(capacity: u16, faults: &[u8], variant: u64, rng: &mut Rng) -> Vec<(u8, u16)> {
    let has = |number: u8| faults.contains(&number);
    let style = rng.pick(&[Prices::Any, Prices::Few, Prices::Top]);
    let mut steps = good::pool_steps(style, capacity, rng);
    let most = 10 * capacity;
    if has(10) {
        let price = rng.range(1, 60) as u8;
        steps = vec![(price, 1), (price - 1, 1)];
        if rng.percent(50) {
            steps.insert(0, (rng.range(0, u64::from(price)) as u8, 1));
        }
    }
    let last = steps.len() - 1;
    if has(11) {
        let others: u16 = steps[..last].iter().map(|step| step.1).sum();
        match variant % 4 {
            0 | 1 => steps[last].1 = most - others + 1,
            2 => steps[rng.below(last as u64 + 1) as usize].1 = 0,
            // The sum passes 16 bits, and comes out small there.
            _ => {
                steps = vec![(0, 32_768), (0, 32_768), (60, 1)];
            }
        }
    }
    if has(9) {
        let at = if has(10) { 0 } else { steps.len() - 1 };
        steps[at].0 = rng.pick(&[61, 61, 61, 255]);
    }
    if has(8) {
        let count = turn(&[0, 9, 200, 255, 10], variant + u64::from(faults.len() > 1));
        let filler = if has(9) {
            (255, 65_535)
        } else {
            rng.pick(&[(60, 1), (0, 0)])
        };
        steps.resize(count, filler);
    }
    steps
}

fn some_period(rng: &mut Rng) -> u8 {
    let any = rng.below(PERIODS as u64) as u8;
    rng.pick(&[0, 95, any, any])
}

fn periods_where(holds: impl Fn(usize) -> bool) -> Vec<u8> {
    (0..PERIODS)
        .filter(|&period| holds(period))
        .map(|period| period as u8)
        .collect()
}

/// A period in which that round is cleared; clears it where there is none.
fn cleared_period(maker: &mut Maker, round: usize, rng: &mut Rng) -> u8 {
    let cleared = periods_where(|period| maker.cleared[round][period]);
    if !cleared.is_empty() {
        return rng.pick(&cleared);
    }
    let period = some_period(rng);
    for round in 0..=round {
        if !maker.cleared[round][usize::from(period)] {
            maker.clear(round, usize::from(period));
        }
    }
    period
}

/// A period in which that round is not cleared.
fn open_period(maker: &Maker, round: usize, rng: &mut Rng) -> u8 {
    rng.pick(&periods_where(|period| !maker.cleared[round][period]))
}

/// A period with round 0 cleared and round 1 not; clears round 0 where there is none.
fn half_cleared(maker: &mut Maker, rng: &mut Rng) -> u8 {
    let half = periods_where(|period| maker.cleared[0][period] && !maker.cleared[1][period]);
    if !half.is_empty() {
        return rng.pick(&half);
    }
    let period = open_period(maker, 0, rng);
    maker.clear(0, usize::from(period));
    period
}

/// A round and a period for a plan, a want or a clearing.
fn slot(maker: &mut Maker, faults: &[u8], variant: u64, rng: &mut Rng) -> (u8, u8) {
    let (round, period) = if faults.contains(&20) {
        let round = (variant % 2) as usize;
        (round as u8, cleared_period(maker, round, rng))
    } else if faults.contains(&21) {
        (1, open_period(maker, 0, rng))
    } else if rng.percent(40) {
        (1, half_cleared(maker, rng))
    } else {
        (0, open_period(maker, 0, rng))
    };
    spoilt(round, period, faults, variant, rng)
}

/// The round and the period, with a number that is too high where that is asked for.
fn spoilt(round: u8, period: u8, faults: &[u8], variant: u64, rng: &mut Rng) -> (u8, u8) {
    let round = if faults.contains(&16) {
        beyond(1, variant, rng)
    } else {
        round
    };
    let period = if faults.contains(&17) {
        beyond(95, variant, rng)
    } else {
        period
    };
    (round, period)
}

/// Has a unit called in round 0 of a period that nothing was said of yet, and answers the period.
fn called_unit(maker: &mut Maker, unit: &mut Seller, cleared: bool, rng: &mut Rng) -> Option<u8> {
    let fresh = periods_where(|period| {
        !maker.cleared[0][period] && maker.wants[0][period].iter().all(|&want| want == 0)
    });
    let at = rng.pick(&fresh);
    let period = usize::from(at);
    let ready = maker
        .units()
        .into_iter()
        .find(|s| s.offered && s.floor < Some(s.most_power()))?;
    maker.plan(0, ready.number, period, ready.most_power());
    maker.want(0, (ready.area + 1) % 8, period, 200_000);
    maker.clear(0, period);
    if cleared {
        maker.clear(1, period);
    }
    *unit = Seller {
        number: unit.number,
        ..ready
    };
    if maker
        .sellers
        .iter()
        .any(|s| s.number == unit.number && s.floor.is_some())
    {
        *unit = ready;
    }
    Some(at)
}
