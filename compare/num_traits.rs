//! A stand-in for the crate `num-traits` where Debian's package can't be had: the two traits that `meminterval` names,
//! for 64-bit positions.

#![no_std]

use core::ops::Add;

/// A type that has a one.
pub trait One {
    /// The number one.
    fn one() -> Self;
}

/// A type whose sums can be asked to say when they don't fit.
pub trait CheckedAdd: Sized + Add<Self, Output = Self> {
    /// The sum, or none where it doesn't fit.
    fn checked_add(&self, other: &Self) -> Option<Self>;
}

impl One for u64 {
    /// The number one.
    fn one() -> u64 {
        1
    }
}

impl CheckedAdd for u64 {
    /// The sum, or none where it doesn't fit.
    fn checked_add(&self, other: &u64) -> Option<u64> {
        u64::checked_add(*self, *other)
    }
}
