//! The traits of the crate `num-traits` that the Rust files name.

pub trait Zero {
    fn is_zero(&self) -> bool;
}

pub trait ConstZero: Zero {
    const ZERO: Self;
}

pub trait ConstOne {
    const ONE: Self;
}

macro_rules! numbers {
    ($($integer:ty)*) => {$(
        impl Zero for $integer {
            #[inline]
            fn is_zero(&self) -> bool {
                *self == 0
            }
        }

        impl ConstZero for $integer {
            const ZERO: Self = 0;
        }

        impl ConstOne for $integer {
            const ONE: Self = 1;
        }
    )*};
}
numbers!(i32 i64 u32 u64);
