//! The traits of the crate `primus_integer` that the Rust files name, each with what they use of it.

use std::{
    fmt::Debug,
    ops::{Add, Neg, Sub},
};

use num_traits::{ConstOne, ConstZero};
use rand::distr::SampleUniform;

/// The conversion `value as Self`.
pub trait AsFrom<T> {
    fn as_from(value: T) -> Self;
}

/// The conversion `self as T`.
pub trait AsInto<T> {
    fn as_into(self) -> T;
}

impl<T, U: AsFrom<T>> AsInto<U> for T {
    #[inline]
    fn as_into(self) -> U {
        U::as_from(self)
    }
}

macro_rules! as_from {
    ($($target:ty: $($source:ty)*;)*) => {$($(
        impl AsFrom<$source> for $target {
            #[inline]
            fn as_from(value: $source) -> Self {
                value as $target
            }
        }
    )*)*};
}
as_from! {
    i32: u32 i32 u64 usize f64;
    i64: u32 i32 u64 usize f64;
    u32: u32 i32 u64 usize f64;
    u64: u32 i32 u64 usize f64;
    f64: i32 i64 u32 u64;
    u128: i32 i64 u32 u64;
}

pub trait Integer:
    Copy
    + Debug
    + Ord
    + ConstZero
    + ConstOne
    + Add<Output = Self>
    + Sub<Output = Self>
    + AsFrom<u32>
    + AsFrom<i32>
    + AsFrom<u64>
    + AsFrom<usize>
    + AsFrom<f64>
    + AsInto<f64>
    + AsInto<u128>
{
    const MAX: Self;
}

pub trait SignedInteger: Integer + Neg<Output = Self> {
    type UnsignedInteger;

    fn cast_to_unsigned(self) -> Self::UnsignedInteger;
}

pub trait FheInt: Integer + SampleUniform {}

pub trait FheUint: FheInt {
    type SignedInteger: FheInt + SignedInteger<UnsignedInteger = Self>;

    fn wrapping_add_signed(self, other: Self::SignedInteger) -> Self;
}

macro_rules! integers {
    ($($signed:ty, $unsigned:ty;)*) => {$(
        impl Integer for $signed {
            const MAX: Self = <$signed>::MAX;
        }

        impl Integer for $unsigned {
            const MAX: Self = <$unsigned>::MAX;
        }

        impl SignedInteger for $signed {
            type UnsignedInteger = $unsigned;

            #[inline]
            fn cast_to_unsigned(self) -> $unsigned {
                self as $unsigned
            }
        }

        impl FheInt for $signed {}
        impl FheInt for $unsigned {}

        impl FheUint for $unsigned {
            type SignedInteger = $signed;

            #[inline]
            fn wrapping_add_signed(self, other: $signed) -> Self {
                <$unsigned>::wrapping_add_signed(self, other)
            }
        }
    )*};
}
integers! {
    i32, u32;
    i64, u64;
}
