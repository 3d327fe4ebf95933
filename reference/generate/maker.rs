//! Writes records and remembers as much of the day as is needed to aim the next ones.

pub const PERIODS: usize = 96;
/// The greatest size of a file, less the two bytes of `CD`.
const ROOM: usize = 65_533;

#[derive(Clone, Copy)]
pub struct Seller {
    pub number: u8,
    pub area: u8,
    pub capacity: u16,
    /// None for a pool.
    pub floor: Option<u16>,
    pub offered: bool,
}

impl Seller {
    pub fn most_power(&self) -> u16 {
        10 * self.capacity
    }
}

pub struct Maker {
    pub bytes: Vec<u8>,
    /// Where each record begins.
    pub places: Vec<usize>,
    /// After so many records nothing more is taken, so that the state stays as it is.
    pub limit: usize,
    pub sellers: Vec<Seller>,
    /// Number and area.
    pub plants: Vec<(u8, u8)>,
    pub cleared: [[bool; PERIODS]; 2],
    pub bases: Vec<[u16; 64]>,
    pub wants: [[[u32; 8]; PERIODS]; 2],
}

impl Maker {
    pub fn new() -> Maker {
        Maker {
            bytes: Vec::new(),
            places: Vec::new(),
            limit: usize::MAX,
            sellers: Vec::new(),
            plants: Vec::new(),
            cleared: [[false; PERIODS]; 2],
            bases: vec![[0; 64]; PERIODS],
            wants: [[[0; 8]; PERIODS]; 2],
        }
    }

    /// Writes a record where there is room for it, and says whether there was.
    fn put(&mut self, mark: &[u8; 2], body: &[u8]) -> bool {
        let full = self.bytes.len() + 2 + body.len() > ROOM;
        if full || self.places.len() >= self.limit {
            return false;
        }
        self.places.push(self.bytes.len());
        self.bytes.extend(mark);
        self.bytes.extend(body);
        true
    }

    /// Writes bytes whatever they are and whatever the limit.
    pub fn raw(&mut self, bytes: &[u8]) {
        self.places.push(self.bytes.len());
        self.bytes.extend(bytes);
    }

    pub fn units(&self) -> Vec<Seller> {
        self.sellers
            .iter()
            .copied()
            .filter(|s| s.floor.is_some())
            .collect()
    }

    pub fn pools(&self) -> Vec<Seller> {
        self.sellers
            .iter()
            .copied()
            .filter(|s| s.floor.is_none())
            .collect()
    }

    pub fn open(&mut self, share: u16) {
        self.put(b"DA", &share.to_be_bytes());
    }

    pub fn enrol_unit(&mut self, number: u8, area: u8, capacity: u16, floor: u16) {
        let [c1, c0] = capacity.to_be_bytes();
        let [f1, f0] = floor.to_be_bytes();
        if self.put(b"EU", &[number, area, c1, c0, f1, f0]) {
            let floor = Some(floor);
            self.sellers.push(Seller {
                number,
                area,
                capacity,
                floor,
                offered: false,
            });
        }
    }

    pub fn enrol_pool(&mut self, number: u8, area: u8, capacity: u16) {
        let [c1, c0] = capacity.to_be_bytes();
        if self.put(b"EP", &[number, area, c1, c0]) {
            self.sellers.push(Seller {
                number,
                area,
                capacity,
                floor: None,
                offered: false,
            });
        }
    }

    pub fn enrol_plant(&mut self, number: u8, area: u8) {
        if self.put(b"EW", &[number, area]) {
            self.plants.push((number, area));
        }
    }

    fn mark_offered(&mut self, number: u8) {
        let found = self.sellers.iter_mut().find(|s| s.number == number);
        found.expect("only enrolled sellers offer here").offered = true;
    }

    pub fn offer_unit(&mut self, number: u8, prices: [u8; 8]) {
        let mut body = vec![number];
        body.extend(prices);
        if self.put(b"OU", &body) {
            self.mark_offered(number);
        }
    }

    pub fn offer_pool(&mut self, number: u8, steps: &[(u8, u16)]) {
        if self.put(b"OP", &pool_body(number, steps)) {
            self.mark_offered(number);
        }
    }

    pub fn close_offers(&mut self) {
        self.put(b"CO", &[]);
    }

    pub fn plan(&mut self, round: usize, number: u8, period: usize, base: u16) {
        let [b1, b0] = base.to_be_bytes();
        let done = self.put(b"BA", &[round as u8, number, period as u8, b1, b0]);
        if done && round == 0 {
            self.bases[period][usize::from(number)] = base;
        }
    }

    pub fn want(&mut self, round: usize, area: u8, period: usize, power: u32) {
        let [p3, p2, p1, p0] = power.to_be_bytes();
        if self.put(b"WA", &[round as u8, area, period as u8, p3, p2, p1, p0]) {
            self.wants[round][period][usize::from(area)] = power;
        }
    }

    pub fn clear(&mut self, round: usize, period: usize) {
        if self.put(b"CL", &[round as u8, period as u8]) {
            self.cleared[round][period] = true;
        }
    }

    pub fn read_unit(&mut self, number: u8, period: usize, energy: u32) {
        self.read(b"RU", number, period, energy);
    }

    pub fn read_plant(&mut self, number: u8, period: usize, energy: u32) {
        self.read(b"RW", number, period, energy);
    }

    fn read(&mut self, mark: &[u8; 2], number: u8, period: usize, energy: u32) {
        let [e3, e2, e1, e0] = energy.to_be_bytes();
        self.put(mark, &[number, period as u8, e3, e2, e1, e0]);
    }

    /// Ends a good day; there is always room for it.
    pub fn close_day(&mut self) {
        self.raw(b"CD");
    }
}

/// The body of an `OP`, with as many steps as there are.
pub fn pool_body(number: u8, steps: &[(u8, u16)]) -> Vec<u8> {
    let mut body = vec![number, steps.len() as u8];
    for (price, power) in steps {
        body.push(*price);
        body.extend(power.to_be_bytes());
    }
    body
}
