//! Exact fractions whose denominators are powers of two, of any size: ± magnitude / 2^shift.

use std::cmp::Ordering;
use std::ops::{Add, Mul, Neg, Sub};

/// The magnitude's limbs stand from low to high without leading zeros; `shift` is the least possible.
#[derive(Clone, Debug, PartialEq, Eq)]
pub struct Fraction {
    negative: bool,
    magnitude: Vec<u64>,
    shift: usize,
}

impl Fraction {
    pub fn zero() -> Fraction {
        Fraction::from(0)
    }

    /// v / 2^shift.
    pub fn new(v: i128, shift: usize) -> Fraction {
        let magnitude = v.unsigned_abs();
        reduced(v < 0, vec![magnitude as u64, (magnitude >> 64) as u64], shift)
    }

    /// This number over 2^shift.
    pub fn over_power(self, shift: usize) -> Fraction {
        reduced(self.negative, self.magnitude, self.shift + shift)
    }

    pub fn power(&self, exponent: u32) -> Fraction {
        if exponent == 0 {
            return Fraction::from(1);
        }
        let root = self.power(exponent / 2);
        let square = &root * &root;
        if exponent % 2 == 1 {
            &square * self
        } else {
            square
        }
    }

    pub fn abs(&self) -> Fraction {
        Fraction { negative: false, ..self.clone() }
    }

    /// The largest multiple of 1/2^shift that is not above this number.
    pub fn rounded_down(&self, shift: usize) -> Fraction {
        if self.shift <= shift {
            return self.clone();
        }
        let magnitude = shift_right(&self.magnitude, self.shift - shift);
        let towards_zero = reduced(self.negative, magnitude, shift);
        if self.negative {
            &towards_zero - &Fraction::new(1, shift)
        } else {
            towards_zero
        }
    }

    /// How many bits it takes to write the number down.
    pub fn bits(&self) -> usize {
        (64 * self.magnitude.len()).max(self.shift)
    }

    /// About this number, for messages.
    pub fn approximately(&self) -> f64 {
        let coarse = self.rounded_down(20);
        let magnitude = coarse.magnitude.iter().rev().fold(0.0, |sum, limb| sum * 2f64.powi(64) + *limb as f64);
        let magnitude = magnitude / 2f64.powi(coarse.shift as i32);
        if coarse.negative {
            -magnitude
        } else {
            magnitude
        }
    }
}

impl From<i128> for Fraction {
    fn from(v: i128) -> Fraction {
        Fraction::new(v, 0)
    }
}

impl Neg for Fraction {
    type Output = Fraction;
    fn neg(self) -> Fraction {
        reduced(!self.negative, self.magnitude, self.shift)
    }
}

impl Add for &Fraction {
    type Output = Fraction;
    fn add(self, other: &Fraction) -> Fraction {
        let shift = self.shift.max(other.shift);
        let own = shift_left(&self.magnitude, shift - self.shift);
        let others = shift_left(&other.magnitude, shift - other.shift);
        if self.negative == other.negative {
            return reduced(self.negative, add(&own, &others), shift);
        }
        match compare(&own, &others) {
            Ordering::Less => reduced(other.negative, subtract(&others, &own), shift),
            _ => reduced(self.negative, subtract(&own, &others), shift),
        }
    }
}

impl Sub for &Fraction {
    type Output = Fraction;
    fn sub(self, other: &Fraction) -> Fraction {
        self + &-other.clone()
    }
}

impl Mul for &Fraction {
    type Output = Fraction;
    fn mul(self, other: &Fraction) -> Fraction {
        let magnitude = multiply(&self.magnitude, &other.magnitude);
        reduced(self.negative != other.negative, magnitude, self.shift + other.shift)
    }
}

impl Ord for Fraction {
    fn cmp(&self, other: &Fraction) -> Ordering {
        let difference = self - other;
        match (difference.magnitude.is_empty(), difference.negative) {
            (true, _) => Ordering::Equal,
            (false, true) => Ordering::Less,
            (false, false) => Ordering::Greater,
        }
    }
}

impl PartialOrd for Fraction {
    fn partial_cmp(&self, other: &Fraction) -> Option<Ordering> {
        Some(self.cmp(other))
    }
}

pub fn sum(parts: impl Iterator<Item = Fraction>) -> Fraction {
    parts.fold(Fraction::zero(), |sum, part| &sum + &part)
}

fn reduced(negative: bool, mut magnitude: Vec<u64>, shift: usize) -> Fraction {
    strip(&mut magnitude);
    if magnitude.is_empty() {
        return Fraction { negative: false, magnitude, shift: 0 };
    }
    let zero_limbs = magnitude.iter().take_while(|limb| **limb == 0).count();
    let zeros = (64 * zero_limbs + magnitude[zero_limbs].trailing_zeros() as usize).min(shift);
    Fraction { negative, magnitude: shift_right(&magnitude, zeros), shift: shift - zeros }
}

fn strip(magnitude: &mut Vec<u64>) {
    while magnitude.last() == Some(&0) {
        magnitude.pop();
    }
}

fn shift_left(magnitude: &[u64], bits: usize) -> Vec<u64> {
    let mut shifted = vec![0; bits / 64];
    let mut carry = 0u128;
    for limb in magnitude {
        carry |= u128::from(*limb) << (bits % 64);
        shifted.push(carry as u64);
        carry >>= 64;
    }
    shifted.push(carry as u64);
    strip(&mut shifted);
    shifted
}

fn shift_right(magnitude: &[u64], bits: usize) -> Vec<u64> {
    let limbs = magnitude.get(bits / 64..).unwrap_or(&[]);
    let high = |i: usize| u128::from(limbs.get(i + 1).copied().unwrap_or(0)) << 64;
    let mut shifted: Vec<u64> =
        limbs.iter().enumerate().map(|(i, limb)| ((high(i) | u128::from(*limb)) >> (bits % 64)) as u64).collect();
    strip(&mut shifted);
    shifted
}

fn compare(a: &[u64], b: &[u64]) -> Ordering {
    a.len().cmp(&b.len()).then_with(|| a.iter().rev().cmp(b.iter().rev()))
}

fn add(a: &[u64], b: &[u64]) -> Vec<u64> {
    let (long, short) = if a.len() < b.len() { (b, a) } else { (a, b) };
    let mut carry = 0u128;
    let mut sum = Vec::with_capacity(long.len() + 1);
    for (i, limb) in long.iter().enumerate() {
        carry += u128::from(*limb) + u128::from(short.get(i).copied().unwrap_or(0));
        sum.push(carry as u64);
        carry >>= 64;
    }
    sum.push(carry as u64);
    sum
}

/// a - b for a not below b.
fn subtract(a: &[u64], b: &[u64]) -> Vec<u64> {
    let mut borrow = false;
    let mut difference = Vec::with_capacity(a.len());
    for (i, limb) in a.iter().enumerate() {
        let (part, first) = limb.overflowing_sub(b.get(i).copied().unwrap_or(0));
        let (part, second) = part.overflowing_sub(u64::from(borrow));
        borrow = first || second;
        difference.push(part);
    }
    difference
}

fn multiply(a: &[u64], b: &[u64]) -> Vec<u64> {
    let mut product = vec![0u64; a.len() + b.len()];
    for (i, x) in a.iter().enumerate() {
        let mut carry = 0u128;
        for (j, y) in b.iter().enumerate() {
            carry += u128::from(*x) * u128::from(*y) + u128::from(product[i + j]);
            product[i + j] = carry as u64;
            carry >>= 64;
        }
        product[i + b.len()] = carry as u64;
    }
    product
}

#[cfg(test)]
mod tests {
    use super::*;
    use crate::random::Random;

    /// Small numbers against i128, and large ones by the laws of a ring.
    #[test]
    fn arithmetic() {
        let mut random = Random::new(1);
        for _ in 0..2_000 {
            let (a, b) = (i128::from(random.word() as i32), i128::from(random.word() as i32));
            let (s, t) = (random.below(40), random.below(40));
            let (x, y) = (Fraction::new(a, s), Fraction::new(b, t));
            assert_eq!(&x + &y, Fraction::new((a << t) + (b << s), s + t));
            assert_eq!(&x - &y, Fraction::new((a << t) - (b << s), s + t));
            assert_eq!(&x * &y, Fraction::new(a * b, s + t));
            assert_eq!(x.cmp(&y), (a << t).cmp(&(b << s)));
            assert_eq!(x.rounded_down(3), Fraction::new((a << 3) >> s, 3));
            let z = &x.power(9) + &y.power(7);
            assert_eq!(&(&z * &x) - &(&z * &y), &z * &(&x - &y));
            let square = &z.power(2);
            assert_eq!(&(&(&z + &x) * &(&z - &x)) + &x.power(2), *square);
        }
    }
}
