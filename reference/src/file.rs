//! The day file: records read one by one, each making a call of the day.

use crate::day::{Day, Step};

/// The greatest size of a file that is read at all.
pub const MOST_BYTES: usize = 65_535;

/// Where a file is refused, and by which number.
#[derive(Debug, PartialEq, Eq)]
pub struct Refusal {
    pub place: usize,
    pub number: u8,
}

#[derive(Clone, Copy, PartialEq, Eq)]
enum Stage {
    Nothing,
    Opening,
    Running,
    Closed,
}

/// Reads a whole file; the answer is the day as it stands at `CD`.
pub fn read_day(bytes: &[u8]) -> Result<Day, Refusal> {
    if bytes.len() > MOST_BYTES {
        return Err(Refusal {
            place: MOST_BYTES,
            number: 34,
        });
    }
    let mut day = Day::new();
    let mut stage = Stage::Nothing;
    let mut place = 0;
    while place < bytes.len() {
        let rest = &bytes[place..];
        let (length, next) =
            read_record(&mut day, stage, rest).map_err(|number| Refusal { place, number })?;
        place += length;
        stage = next;
    }
    if stage != Stage::Closed {
        return Err(Refusal { place, number: 33 });
    }
    Ok(day)
}

/// Takes the record at the head of `rest`; answers its length and the stage after it.
fn read_record(day: &mut Day, stage: Stage, rest: &[u8]) -> Result<(usize, Stage), u8> {
    let &[first, second, ..] = rest else {
        return Err(30);
    };
    let mark = [first, second];
    let Some(right_stage) = stage_of(mark) else {
        return Err(31);
    };
    if stage != right_stage {
        return Err(32);
    }
    let length = match length_of(mark, rest) {
        Some(length) if length <= rest.len() => length,
        _ => return Err(30),
    };
    make_call(day, mark, &mut Body(&rest[2..length]))?;
    let next = match &mark {
        b"DA" => Stage::Opening,
        b"CO" => Stage::Running,
        b"CD" => Stage::Closed,
        _ => stage,
    };
    Ok((length, next))
}

/// The stage in which a mark is right; none for an unknown mark.
fn stage_of(mark: [u8; 2]) -> Option<Stage> {
    match &mark {
        b"DA" => Some(Stage::Nothing),
        b"EU" | b"EP" | b"EW" | b"OU" | b"OP" | b"CO" => Some(Stage::Opening),
        b"BA" | b"WA" | b"CL" | b"RU" | b"RW" | b"CD" => Some(Stage::Running),
        _ => None,
    }
}

/// The length of a record with its mark; none where the count that decides it is cut off.
fn length_of(mark: [u8; 2], rest: &[u8]) -> Option<usize> {
    let length = match &mark {
        b"CO" | b"CD" => 2,
        b"DA" | b"EW" | b"CL" => 4,
        b"EP" => 6,
        b"BA" => 7,
        b"EU" | b"RU" | b"RW" => 8,
        b"WA" => 9,
        b"OU" => 11,
        b"OP" => 4 + 3 * usize::from(*rest.get(3)?),
        _ => unreachable!("the mark is known"),
    };
    Some(length)
}

fn make_call(day: &mut Day, mark: [u8; 2], body: &mut Body) -> Result<(), u8> {
    match &mark {
        b"DA" => day.open(body.two()),
        b"EU" => day.enrol_unit(body.one(), body.one(), body.two(), body.two()),
        b"EP" => day.enrol_pool(body.one(), body.one(), body.two()),
        b"EW" => day.enrol_plant(body.one(), body.one()),
        b"OU" => day.offer_unit(body.one(), std::array::from_fn(|_| body.one())),
        b"OP" => {
            let seller = body.one();
            let count = body.one();
            let steps = (0..count)
                .map(|_| Step {
                    price: body.one(),
                    power: body.two(),
                })
                .collect();
            day.offer_pool(seller, steps)
        }
        b"BA" => day.plan(body.one(), body.one(), body.one(), body.two()),
        b"WA" => day.want(body.one(), body.one(), body.one(), body.four()),
        b"CL" => day.clear(body.one(), body.one()),
        b"RU" => day.read_unit(body.one(), body.one(), body.four()),
        b"RW" => day.read_plant(body.one(), body.one(), body.four()),
        _ => Ok(()),
    }
}

/// The bytes of a body that are not read yet; the whole body is known to be there.
struct Body<'a>(&'a [u8]);

impl Body<'_> {
    fn one(&mut self) -> u8 {
        let byte = self.0[0];
        self.0 = &self.0[1..];
        byte
    }

    fn two(&mut self) -> u16 {
        u16::from_be_bytes([self.one(), self.one()])
    }

    fn four(&mut self) -> u32 {
        u32::from_be_bytes([self.one(), self.one(), self.one(), self.one()])
    }
}

#[cfg(test)]
mod tests {
    use super::*;

    fn refusal(bytes: &[u8]) -> Option<(usize, u8)> {
        read_day(bytes).err().map(|r| (r.place, r.number))
    }

    #[test]
    fn order_of_the_file_checks() {
        assert_eq!(refusal(b""), Some((0, 33)));
        assert_eq!(refusal(b"D"), Some((0, 30)));
        assert_eq!(refusal(b"XX"), Some((0, 31)));
        assert_eq!(refusal(b"EU"), Some((0, 32)));
        assert_eq!(refusal(b"DA\x03"), Some((0, 30)));
        assert_eq!(refusal(b"DA\x03\xe9"), Some((0, 1)));
        assert_eq!(refusal(b"DA\x03\xe8"), Some((4, 33)));
        assert_eq!(refusal(b"DA\x00\x00COCD"), None);
        assert_eq!(refusal(b"DA\x00\x00COCDC"), Some((8, 30)));
        assert_eq!(refusal(b"DA\x00\x00COCDCD"), Some((8, 32)));
        assert_eq!(refusal(b"DA\x00\x00COCDcd"), Some((8, 31)));
        assert_eq!(refusal(&[0; 65_536]), Some((65_535, 34)));
        assert_eq!(refusal(&[0; 65_535]), Some((0, 31)));
    }

    #[test]
    fn a_count_is_read_where_its_bytes_are_there() {
        let mut bytes = b"DA\x00\x00EP\x05\x00\x00\x01OP\x05".to_vec();
        assert_eq!(refusal(&bytes), Some((10, 30)));
        bytes.push(0);
        assert_eq!(refusal(&bytes), Some((10, 8)));
        bytes[13] = 200;
        bytes.extend([0; 599]);
        assert_eq!(refusal(&bytes), Some((10, 30)));
        bytes.push(0);
        assert_eq!(refusal(&bytes), Some((10, 8)));
        bytes[12] = 64;
        assert_eq!(refusal(&bytes), Some((10, 2)));
    }
}
