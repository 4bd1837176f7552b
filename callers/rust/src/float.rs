// SPDX-License-Identifier: Apache-2.0
//! Floating numbers in the order of their bits: a whole number of the same width for each, that ascends as they do.
//!
//! -0.0 is 0.0, and every NaN is one NaN above infinity.

/// What a comparison with NaN means.
#[derive(Clone, Copy, Debug, PartialEq, Eq, Hash)]
pub enum Nan {
    /// NaN is equal to itself and above all other numbers: PostgreSQL, DuckDB, Spark, the total order of Arrow.
    Greatest,
    /// Of NaN only `ne` is true: ClickHouse, numpy, `f64` itself.
    Ieee,
    /// A zone is skipped or whole only where both meanings agree.
    Either,
}

macro_rules! orders {
    ($($name:ident $float:ident $number:ident $nan:literal),*) => {
        $(/// The order of floating numbers of one width.
        #[derive(Clone, Copy, Debug, PartialEq, Eq)]
        pub struct $name;

        impl $name {
            /// The number of infinity.
            pub const INFINITY: $number = $float::INFINITY.to_bits() as $number;
            /// The number of NaN.
            pub const NAN: $number = $nan;

            /// Returns the whole number of a floating one.
            #[must_use]
            pub fn number(value: $float) -> $number {
                if value.is_nan() {
                    return Self::NAN;
                }
                let bits = (value + 0.0).to_bits() as $number;
                if bits < 0 { bits ^ $number::MAX } else { bits }
            }

            /// Returns the floating number of a whole one.
            #[must_use]
            pub fn value(number: $number) -> $float {
                if !(-Self::INFINITY - 1..=Self::INFINITY).contains(&number) {
                    return $float::NAN;
                }
                let bits = if number < 0 { number ^ $number::MAX } else { number };
                $float::from_bits(bits as _) + 0.0
            }

            /// Returns the whole numbers of a column's values.
            #[must_use]
            pub fn numbers(values: &[$float]) -> Vec<$number> {
                values.iter().map(|value| Self::number(*value)).collect()
            }
        })*
    };
}

orders!(Float32 f32 i32 0x7fc0_0000, Float64 f64 i64 0x7ff8_0000_0000_0000);
