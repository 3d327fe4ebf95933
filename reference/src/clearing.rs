//! Clearing of a round: the price, and what each seller is called for.

use std::cmp::Ordering;
use std::collections::BinaryHeap;

/// Prices run from 0 to 60.
pub const PRICES: usize = 61;

/// A seller as clearing sees it.
pub struct Curve {
    pub number: u8,
    pub weight: u64,
    /// The power offered at each price or less.
    pub powers: [u64; PRICES],
}

/// What a cleared round brought; a seller without a call stands for 0.
pub struct Outcome {
    pub wanted: u64,
    pub brought: u64,
    pub price: Option<u64>,
    pub calls: Vec<(u8, u64)>,
}

impl Outcome {
    pub fn call(&self, seller: u8) -> u64 {
        let found = self.calls.iter().find(|(number, _)| *number == seller);
        found.map_or(0, |(_, call)| *call)
    }
}

/// Clears a round; the sellers come in rising number.
pub fn clear(sellers: &[Curve], wanted: u64) -> Outcome {
    let offered = |price: usize| -> u64 { sellers.iter().map(|s| s.powers[price]).sum() };
    let brought = wanted.min(offered(PRICES - 1));
    if brought == 0 {
        return Outcome {
            wanted,
            brought,
            price: None,
            calls: Vec::new(),
        };
    }
    let price = (0..PRICES)
        .find(|&price| offered(price) >= brought)
        .expect("the curves at 60 reach what is brought");
    let mut calls: Vec<u64> = sellers
        .iter()
        .map(|s| if price == 0 { 0 } else { s.powers[price - 1] })
        .collect();
    let left = brought - calls.iter().sum::<u64>();
    hand_out(sellers, price, left, &mut calls);
    Outcome {
        wanted,
        brought,
        price: Some(price as u64),
        calls: sellers.iter().map(|s| s.number).zip(calls).collect(),
    }
}

/// Hands out `left` tenths one by one among the sellers called for less than they offer.
fn hand_out(sellers: &[Curve], price: usize, left: u64, calls: &mut [u64]) {
    let mut heap: BinaryHeap<Turn> = sellers
        .iter()
        .enumerate()
        .filter(|&(index, seller)| calls[index] < seller.powers[price])
        .map(|(index, seller)| Turn {
            next: 1,
            weight: seller.weight,
            index,
        })
        .collect();
    for _ in 0..left {
        let mut turn = heap.peek_mut().expect("the curves reach what is brought");
        let index = turn.index;
        calls[index] += 1;
        if calls[index] < sellers[index].powers[price] {
            // The heap puts the changed turn in its place when `turn` goes.
            turn.next += 1;
        } else {
            std::collections::binary_heap::PeekMut::pop(turn);
        }
    }
}

/// A seller waiting for a tenth; the greatest turn is the one that gets it.
struct Turn {
    /// The tenths had at the price, and one.
    next: u64,
    weight: u64,
    index: usize,
}

impl Ord for Turn {
    fn cmp(&self, other: &Self) -> Ordering {
        // next / weight against other.next / other.weight, the least first.
        (other.next * self.weight)
            .cmp(&(self.next * other.weight))
            .then(other.index.cmp(&self.index))
    }
}

impl PartialOrd for Turn {
    fn partial_cmp(&self, other: &Self) -> Option<Ordering> {
        Some(self.cmp(other))
    }
}

impl PartialEq for Turn {
    fn eq(&self, other: &Self) -> bool {
        self.cmp(other) == Ordering::Equal
    }
}

impl Eq for Turn {}

#[cfg(test)]
mod tests {
    use super::*;

    fn flat(number: u8, weight: u64, from: usize, power: u64) -> Curve {
        let powers = std::array::from_fn(|price| if price >= from { power } else { 0 });
        Curve {
            number,
            weight,
            powers,
        }
    }

    #[test]
    fn tenths_follow_the_least_fraction() {
        // Fractions: A 1/3 2/3 1 ..., B 1/2 1 ...; so A B A, then the tie at 1 to A, then B.
        for (wanted, calls) in [
            (1, [1, 0]),
            (2, [1, 1]),
            (3, [2, 1]),
            (4, [3, 1]),
            (5, [3, 2]),
        ] {
            let outcome = clear(&[flat(4, 3, 7, 100), flat(9, 2, 7, 100)], wanted);
            assert_eq!(outcome.price, Some(7));
            assert_eq!(outcome.calls, [(4, calls[0]), (9, calls[1])]);
        }
    }

    #[test]
    fn a_full_seller_drops_out() {
        let outcome = clear(&[flat(0, 1000, 0, 2), flat(1, 1, 0, 50)], 30);
        assert_eq!(outcome.calls, [(0, 2), (1, 28)]);
        assert_eq!(outcome.price, Some(0));
    }

    #[test]
    fn shortage_and_nothing() {
        let short = clear(&[flat(0, 1, 60, 2), flat(1, 1, 3, 5)], 500);
        assert_eq!((short.brought, short.price), (7, Some(60)));
        let none = clear(&[flat(0, 1, 0, 0)], 500);
        assert_eq!((none.brought, none.price, none.call(0)), (0, None, 0));
    }
}
