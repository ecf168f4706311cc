//! Rows of one to eight bytes as numbers, and what the processor works out with them.

/// One to eight bytes, the low one first, as a number; its bits past the row are 0.
#[derive(Clone, Copy, Debug, PartialEq, Eq)]
pub struct Row {
    pub value: u64,
    pub bytes: u32,
}

/// How the arithmetic unit counts.
#[derive(Clone, Copy, Debug, PartialEq, Eq)]
pub enum Counting {
    Binary,
    Decimal,
}

/// A row with the carry and the overflow that came with it.
#[derive(Clone, Copy, Debug, PartialEq, Eq)]
pub struct Worked {
    pub row: Row,
    pub carry: bool,
    pub overflow: bool,
}

/// A row, and the bit or digit that a shift moved out of it.
#[derive(Clone, Copy, Debug, PartialEq, Eq)]
pub struct Shifted {
    pub row: Row,
    pub lost: u8,
}

/// `value` in every digit of a number.
const fn in_each_digit(value: u64) -> u64 {
    0x1111_1111_1111_1111 * value
}

impl Row {
    pub const fn new(value: u64, bytes: u32) -> Self {
        Self { value: value & ones(bytes), bytes }
    }

    const fn with(self, value: u64) -> Self {
        Self::new(value, self.bytes)
    }

    const fn bits(self) -> u32 {
        8 * self.bytes
    }

    /// The index of the first byte with a digit above 9.
    pub fn not_decimal(self) -> Option<u8> {
        // A digit is above 9 where its bit 3 is set, and bit 2 or bit 1.
        let above = (self.value >> 3) & ((self.value >> 2) | (self.value >> 1)) & in_each_digit(1);
        (above != 0).then(|| (above.trailing_zeros() / 8) as u8)
    }

    /// Bit 7 of the last byte.
    pub const fn top_bit(self) -> bool {
        self.value >> (self.bits() - 1) == 1
    }

    /// The high digit of the last byte.
    const fn top_digit(self) -> u8 {
        (self.value >> (self.bits() - 4)) as u8
    }

    pub const fn is_zero(self) -> bool {
        self.value == 0
    }

    pub const fn low_bit(self) -> bool {
        self.value % 2 == 1
    }

    pub const fn low_digit_is_zero(self) -> bool {
        self.value % 16 == 0
    }

    pub const fn top_digit_is_zero(self) -> bool {
        self.top_digit() == 0
    }

    /// Each byte taken from the highest one of `counting`.
    pub const fn complement(self, counting: Counting) -> Self {
        let highest = match counting {
            Counting::Binary => u64::MAX,
            Counting::Decimal => in_each_digit(9),
        };
        self.with(highest.wrapping_sub(self.value))
    }

    pub fn plus(self, other: Self, counting: Counting) -> Worked {
        self.sum(other, false, counting)
    }

    /// `self` less `other`; the carry says that nothing was borrowed.
    pub fn minus(self, other: Self, counting: Counting) -> Worked {
        self.sum(other.complement(counting), true, counting)
    }

    fn sum(self, other: Self, carry: bool, counting: Counting) -> Worked {
        match counting {
            Counting::Binary => {
                let (sum, first) = self.value.overflowing_add(other.value);
                let (sum, second) = sum.overflowing_add(carry.into());
                let row = self.with(sum);
                // The signed sum does not fit where both summands have the sign that it lacks.
                let signs = (self.value ^ row.value) & (other.value ^ row.value);
                Worked { row, carry: first | second | (sum != row.value), overflow: self.with(signs).top_bit() }
            }
            Counting::Decimal => {
                // With 6 more in each digit, a digit carries as four bits do; then the 6 is taken from those that did not.
                let raised = self.value + in_each_digit(6);
                let (sum, first) = raised.overflowing_add(other.value);
                let (sum, second) = sum.overflowing_add(carry.into());
                let carried = (raised ^ other.value ^ sum) >> 4 | u64::from(first | second) << 60;
                let row = self.with(sum - 6 * (!carried & in_each_digit(1)));
                Worked { row, carry: carried >> (self.bits() - 4) & 1 == 1, overflow: false }
            }
        }
    }

    /// Up by one bit or digit, with `put_in` at the low end.
    pub const fn left(self, put_in: u8, counting: Counting) -> Shifted {
        let (lost, width) = match counting {
            Counting::Binary => (self.top_bit() as u8, 1),
            Counting::Decimal => (self.top_digit(), 4),
        };
        Shifted { row: self.with(self.value << width | put_in as u64), lost }
    }

    /// Down by one bit or digit, with `put_in` at the high end.
    pub const fn right(self, put_in: u8, counting: Counting) -> Shifted {
        let width = match counting {
            Counting::Binary => 1,
            Counting::Decimal => 4,
        };
        let lost = (self.value & ((1 << width) - 1)) as u8;
        let top = (put_in as u64) << (self.bits() - width);
        Shifted { row: self.with(self.value >> width | top), lost }
    }
}

/// The number whose low `bytes` bytes are all ones.
pub const fn ones(bytes: u32) -> u64 {
    u64::MAX >> (64 - 8 * bytes)
}

#[cfg(test)]
mod tests {
    use super::*;

    const POWERS: [u64; 9] = [
        1,
        100,
        10_000,
        1_000_000,
        100_000_000,
        10_000_000_000,
        1_000_000_000_000,
        100_000_000_000_000,
        10_000_000_000_000_000,
    ];

    /// The digits of `number` in a row.
    fn decimal(number: u64, bytes: u32) -> Row {
        let digits = (0..16).map(|i| (number / 10_u64.pow(i) % 10) << (4 * i));
        Row::new(digits.sum(), bytes)
    }

    /// Some numbers under `below`, its edges among them.
    fn samples(below: u64) -> Vec<u64> {
        let mut seed = 1_u64;
        let edges = [0, 1, below / 2 - 1, below / 2, below - 2, below - 1];
        let others = std::iter::repeat_with(|| {
            seed = seed.wrapping_mul(6_364_136_223_846_793_005).wrapping_add(1_442_695_040_888_963_407);
            seed % below
        });
        edges.iter().copied().chain(others.take(50)).collect()
    }

    #[test]
    fn decimal_sums_and_differences_are_those_of_the_numbers() {
        for bytes in 1..=8 {
            let base = POWERS[bytes as usize];
            for a in samples(base) {
                for b in samples(base) {
                    let (x, y) = (decimal(a, bytes), decimal(b, bytes));
                    let sum = Worked { row: decimal((a + b) % base, bytes), carry: a + b >= base, overflow: false };
                    let difference =
                        Worked { row: decimal((a + base - b) % base, bytes), carry: a >= b, overflow: false };
                    assert_eq!(x.plus(y, Counting::Decimal), sum, "{a} + {b} in {bytes}");
                    assert_eq!(x.minus(y, Counting::Decimal), difference, "{a} - {b} in {bytes}");
                    assert_eq!(x.complement(Counting::Decimal), decimal(base - 1 - a, bytes));
                }
            }
        }
    }

    #[test]
    fn binary_sums_and_differences_are_those_of_the_numbers() {
        for bytes in 1..=7 {
            let base = 1_i128 << (8 * bytes);
            let signed = |value: i128| if value < base / 2 { value } else { value - base };
            let fits = |value: i128| (-base / 2..base / 2).contains(&value);
            for a in samples(base as u64) {
                for b in samples(base as u64) {
                    let (x, y) = (Row::new(a, bytes), Row::new(b, bytes));
                    let (a, b) = (i128::from(a), i128::from(b));
                    let sum = Worked {
                        row: Row::new((a + b) as u64, bytes),
                        carry: a + b >= base,
                        overflow: !fits(signed(a) + signed(b)),
                    };
                    let difference = Worked {
                        row: Row::new((a - b) as u64, bytes),
                        carry: a >= b,
                        overflow: !fits(signed(a) - signed(b)),
                    };
                    assert_eq!(x.plus(y, Counting::Binary), sum, "{a} + {b} in {bytes}");
                    assert_eq!(x.minus(y, Counting::Binary), difference, "{a} - {b} in {bytes}");
                }
            }
        }
    }

    #[test]
    fn the_first_byte_that_is_not_decimal() {
        assert_eq!(Row::new(0x99_09_90, 3).not_decimal(), None);
        assert_eq!(Row::new(0xA0_99, 2).not_decimal(), Some(1));
        assert_eq!(Row::new(0x0A_0C, 2).not_decimal(), Some(0));
        assert_eq!(Row::new(0xF0 << 56, 8).not_decimal(), Some(7));
    }

    #[test]
    fn shifts_by_a_bit_and_by_a_digit() {
        let row = Row::new(0x8001, 2);
        let shifted = |value, lost| Shifted { row: Row::new(value, 2), lost };
        assert_eq!(row.left(1, Counting::Binary), shifted(0x0003, 1));
        assert_eq!(row.right(1, Counting::Binary), shifted(0xC000, 1));
        assert_eq!(row.left(7, Counting::Decimal), shifted(0x0017, 8));
        assert_eq!(row.right(7, Counting::Decimal), shifted(0x7800, 1));
    }
}
