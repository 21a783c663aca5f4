//! Request 5, the financial correction: the gap to the balanced energy at each quarter's price, summed exactly and
//! split once into cents and remainder.

use crate::archive::Refusal;
use std::iter::Sum;
use std::ops::{Mul, RangeInclusive, Sub};

/// Energy in Wh.
#[derive(Clone, Copy, Debug, PartialEq, Eq, PartialOrd, Ord)]
pub struct Energy(pub i128);

/// Price in cents per MWh.
#[derive(Clone, Copy, Debug, PartialEq, Eq, PartialOrd, Ord)]
pub struct Price(pub i128);

/// Money in millionths of a cent: a Wh at a cent per MWh.
#[derive(Clone, Copy, Debug, PartialEq, Eq, PartialOrd, Ord)]
pub struct Money(pub i128);

/// The most quarters of a call.
pub const MOST_QUARTERS: usize = 2_976;
/// Amounts and balanced energies, and prices, that aren't refused.
pub const ENERGIES: RangeInclusive<Energy> = Energy(-1_000_000_000)..=Energy(1_000_000_000);
pub const PRICES: RangeInclusive<Price> = Price(-1_000_000)..=Price(1_000_000);
/// Millionths of a cent.
const CENT: i128 = 1_000_000;

impl Sub for Energy {
    type Output = Energy;

    fn sub(self, other: Energy) -> Energy {
        Energy(self.0 - other.0)
    }
}

impl Mul<Price> for Energy {
    type Output = Money;

    fn mul(self, price: Price) -> Money {
        Money(self.0 * price.0)
    }
}

impl Sum for Money {
    fn sum<I: Iterator<Item = Money>>(all: I) -> Money {
        Money(all.map(|one| one.0).sum())
    }
}

impl Money {
    /// Whole cents, rounded down toward minus infinity, and the millionths that are left, 0 to 999,999.
    pub fn split(self) -> (i64, u64) {
        (self.0.div_euclid(CENT) as i64, self.0.rem_euclid(CENT) as u64)
    }
}

/// Cents and remainder of all quarters together; refusals in the order 22, 20, 21, each over the whole lists.
pub fn correction(amounts: &[i64], balanced: &[i64], prices: &[i64]) -> Result<(i64, u64), Refusal> {
    if amounts.len() != balanced.len() || amounts.len() != prices.len() {
        return Err(22);
    }
    let energies = |list: &[i64]| list.iter().map(|&one| Energy(one.into())).collect::<Vec<_>>();
    let (amounts, balanced) = (energies(amounts), energies(balanced));
    if amounts.len() > MOST_QUARTERS || amounts.iter().chain(&balanced).any(|one| !ENERGIES.contains(one)) {
        return Err(20);
    }
    let prices: Vec<Price> = prices.iter().map(|&one| Price(one.into())).collect();
    if prices.iter().any(|one| !PRICES.contains(one)) {
        return Err(21);
    }
    let gaps = amounts.iter().zip(&balanced).map(|(&amount, &balanced)| amount - balanced);
    let sum: Money = gaps.zip(&prices).map(|(gap, &price)| gap * price).sum();
    Ok(sum.split())
}

/// The same as the host calls it: a refusal leaves the lent cents and remainder.
pub fn host_correction(
    amounts: &[i64],
    balanced: &[i64],
    prices: &[i64],
    cents: &mut i64,
    remainder: &mut u64,
) -> Refusal {
    match correction(amounts, balanced, prices) {
        Ok(found) => {
            (*cents, *remainder) = found;
            0
        }
        Err(number) => number,
    }
}
