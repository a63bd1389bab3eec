//! Whole numbers of any size, with no more than the rules of the tables and the bounds of the
//! agreed meaning need.

use std::cmp::Ordering;

/// A whole number by its 64-bit digits, least first, the last of them not 0.
#[derive(Clone, Debug, Eq, PartialEq)]
pub struct Natural {
    digits: Vec<u64>,
}

impl From<u64> for Natural {
    fn from(value: u64) -> Self {
        Self::of_digits(vec![value])
    }
}

impl Natural {
    fn of_digits(mut digits: Vec<u64>) -> Self {
        while digits.last() == Some(&0) {
            digits.pop();
        }
        Self { digits }
    }

    pub fn power_of_two(exponent: usize) -> Self {
        Self::from(1).shifted(exponent)
    }

    pub fn plus(&self, other: &Self) -> Self {
        let (long, short) = if self.digits.len() < other.digits.len() {
            (other, self)
        } else {
            (self, other)
        };
        let mut digits = long.digits.clone();
        let mut carry = false;
        for (index, digit) in digits.iter_mut().enumerate() {
            let addend = short.digits.get(index).copied().unwrap_or(0);
            let (sum, first) = digit.overflowing_add(addend);
            let (sum, second) = sum.overflowing_add(u64::from(carry));
            *digit = sum;
            carry = first || second;
        }
        digits.push(u64::from(carry));
        Self::of_digits(digits)
    }

    pub fn times(&self, other: &Self) -> Self {
        let mut digits = vec![0; self.digits.len() + other.digits.len()];
        for (low, &a) in self.digits.iter().enumerate() {
            let mut carry = 0;
            for (high, &b) in other.digits.iter().enumerate() {
                let digit = &mut digits[low + high];
                let wide = u128::from(a) * u128::from(b) + u128::from(*digit) + carry;
                *digit = wide as u64;
                carry = wide >> 64;
            }
            digits[low + other.digits.len()] = carry as u64;
        }
        Self::of_digits(digits)
    }

    /// The number times 2^bits.
    pub fn shifted(&self, bits: usize) -> Self {
        let mut digits = vec![0; bits / 64];
        let mut carry = 0;
        for &digit in &self.digits {
            let wide = u128::from(digit) << (bits % 64) | carry;
            digits.push(wide as u64);
            carry = wide >> 64;
        }
        digits.push(carry as u64);
        Self::of_digits(digits)
    }

    /// The number to a power, by squares.
    pub fn power(&self, exponent: usize) -> Self {
        if exponent == 0 {
            return Self::from(1);
        }
        let half = self.power(exponent / 2);
        let square = half.times(&half);
        if exponent.is_multiple_of(2) {
            square
        } else {
            square.times(self)
        }
    }
}

impl Ord for Natural {
    fn cmp(&self, other: &Self) -> Ordering {
        let length = self.digits.len().cmp(&other.digits.len());
        length.then_with(|| self.digits.iter().rev().cmp(other.digits.iter().rev()))
    }
}

impl PartialOrd for Natural {
    fn partial_cmp(&self, other: &Self) -> Option<Ordering> {
        Some(self.cmp(other))
    }
}
