//! Share-out of an amount by weights.

use std::cmp::Reverse;

/// The parts of an amount, one for each weight, and what no party carries.
#[derive(Debug, PartialEq, Eq)]
pub struct Shared {
    pub parts: Vec<u64>,
    pub uncarried: u64,
}

/// Shares `amount` out among parties given by their weights, in rising number.
pub fn share_out(amount: u64, weights: &[u64]) -> Shared {
    let sum: u128 = weights.iter().map(|&weight| u128::from(weight)).sum();
    if sum == 0 {
        return Shared {
            parts: vec![0; weights.len()],
            uncarried: amount,
        };
    }
    let products = weights
        .iter()
        .map(|&weight| u128::from(amount) * u128::from(weight));
    let (quotients, remainders): (Vec<u128>, Vec<u128>) = products
        .map(|product| (product / sum, product % sum))
        .unzip();
    let mut parts: Vec<u64> = quotients
        .into_iter()
        .map(|part| u64::try_from(part).expect("a part is at most the amount"))
        .collect();
    let left = amount - parts.iter().sum::<u64>();
    let mut order: Vec<usize> = (0..weights.len()).collect();
    // The sort is stable: equal remainders stay in rising number.
    order.sort_by_key(|&party| Reverse(remainders[party]));
    for party in order.into_iter().take(left as usize) {
        parts[party] += 1;
    }
    debug_assert_eq!(parts.iter().sum::<u64>(), amount);
    Shared {
        parts,
        uncarried: 0,
    }
}

#[cfg(test)]
mod tests {
    use super::*;

    #[test]
    fn what_is_left_goes_to_the_greatest_remainders() {
        assert_eq!(share_out(10, &[1, 1, 1]).parts, [4, 3, 3]);
        assert_eq!(share_out(11, &[1, 1, 1]).parts, [4, 4, 3]);
        // 7/6 and 35/6: remainders 1 and 5.
        assert_eq!(share_out(7, &[1, 5]).parts, [1, 6]);
        // The figures of the small day: 6000 by 92,000 and 45,000.
        assert_eq!(share_out(6000, &[92_000, 45_000]).parts, [4029, 1971]);
        assert_eq!(
            share_out(5, &[0, 0]),
            Shared {
                parts: vec![0, 0],
                uncarried: 5
            }
        );
        assert_eq!(
            share_out(5, &[]),
            Shared {
                parts: vec![],
                uncarried: 5
            }
        );
    }
}
