//! Rejections in a million cycles: No. 8 of document 02.

use crate::refusal::{Cause, Refusal};
use crate::simulator::Tally;

#[derive(Clone, Copy, Debug, PartialEq, Eq)]
pub struct Rate {
    pub whole: u32,
    pub remainder: u32,
}

/// Checks 21: "no cycles, or rejected above cycles". "From a tally, return the whole
/// part and the remainder of rejected × 1,000,000 ÷ cycles."
pub fn per_million(tally: Tally) -> Result<Rate, Refusal> {
    if tally.cycles == 0 || tally.rejected > tally.cycles {
        return Err(Cause::NoRate.no_line());
    }
    // A million times a number is written as that number and six noughts.
    let dividend = format!("{}000000", tally.rejected);
    Ok(long_division(&dividend, tally.cycles))
}

/// As on paper: each decimal digit is brought down to what is left, and the
/// divisor then taken away as often as it goes, at most nine times.
fn long_division(dividend: &str, divisor: u32) -> Rate {
    let divisor = u64::from(divisor);
    let (mut whole, mut left) = (0, 0);
    for digit in dividend.bytes() {
        whole *= 10;
        left = 10 * left + u64::from(digit - b'0');
        while left >= divisor {
            left -= divisor;
            whole += 1;
        }
    }
    Rate {
        whole,
        // Under the divisor, which has 32 bits.
        remainder: left as u32,
    }
}

#[cfg(test)]
mod tests {
    use super::*;
    use crate::testing::numbered;

    fn rated(cycles: u32, rejected: u32) -> Result<(u32, u32), (u8, u32)> {
        let tally = Tally {
            cycles,
            rejected,
            ..Tally::default()
        };
        per_million(tally)
            .map(|rate| (rate.whole, rate.remainder))
            .map_err(numbered)
    }

    #[test]
    fn worked_cases() {
        for (cycles, rejected, due) in [
            (1, 0, Ok((0, 0))),
            (1, 1, Ok((1_000_000, 0))),
            (2, 1, Ok((500_000, 0))),
            (3, 1, Ok((333_333, 1))),
            (3, 2, Ok((666_666, 2))),
            (7, 3, Ok((428_571, 3))),
            (9, 2, Ok((222_222, 2))),
            (1_000_000, 1, Ok((1, 0))),
            (1_000_001, 1, Ok((0, 1_000_000))),
            (524_288, 17, Ok((32, 222_784))),
            (4_294_967_295, 1, Ok((0, 1_000_000))),
            (4_294_967_295, 4_294_967_294, Ok((999_999, 4_293_967_295))),
            (4_294_967_295, 4_294_967_295, Ok((1_000_000, 0))),
            (0, 0, Err((21, 0))),
            (0, 1, Err((21, 0))),
            (5, 6, Err((21, 0))),
        ] {
            assert_eq!(rated(cycles, rejected), due, "{cycles}, {rejected}");
        }
    }

    /// rejected × 1,000,000 = whole × cycles + remainder, with a remainder under cycles.
    #[test]
    fn pairs_of_small_and_of_large_numbers() {
        let numbers: Vec<u32> = (0..=200)
            .chain(4_290..=4_300)
            .chain(999_990..=1_000_010)
            .chain(u32::MAX - 20..=u32::MAX)
            .collect();
        for &cycles in &numbers {
            for &rejected in &numbers {
                let due = cycles > 0 && rejected <= cycles;
                match rated(cycles, rejected) {
                    Ok((whole, remainder)) => {
                        let product = u64::from(whole) * u64::from(cycles) + u64::from(remainder);
                        assert_eq!(u64::from(rejected) * 1_000_000, product);
                        assert!(due && remainder < cycles, "{cycles}, {rejected}");
                    }
                    refused => assert_eq!((due, refused), (false, Err((21, 0)))),
                }
            }
        }
    }
}
