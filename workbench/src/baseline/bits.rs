//! Sets of numbers below 192, a bit for each.

use super::parts::Flags;

#[derive(Clone, Copy, Default, PartialEq, Eq)]
pub struct Bits([u64; 3]);

const ONES: u64 = 0x0101_0101_0101_0101;

impl Bits {
    /// The places of the flags, each 0 or 1, that are 1.
    #[inline]
    pub fn of_flags(flags: &Flags) -> Bits {
        let (eights, last) = flags.as_chunks::<8>();
        let mut bits = Bits::default();
        for (index, eight) in eights.iter().enumerate() {
            // The product has flag i as its bit 56 + i, and no bits that carry.
            let gathered = u64::from_le_bytes(*eight).wrapping_mul(0x0102_0408_1020_4080) >> 56;
            bits.0[index / 8] |= gathered << (8 * (index % 8));
        }
        for (index, &flag) in last.iter().enumerate() {
            bits.0[2] |= u64::from(flag) << (8 * eights.len() - 128 + index);
        }
        bits
    }

    /// Puts a flag for each place, 1 for those in the set.
    pub fn to_flags(self, flags: &mut [u8]) {
        for (index, eight) in flags.chunks_mut(8).enumerate() {
            let byte = self.0[index / 8] >> (8 * (index % 8)) & 0xff;
            // Byte i keeps bit i, and then has 1 for whatever it kept.
            let kept = (byte * ONES) & 0x8040_2010_0804_0201;
            let flags = (kept + 0x7f * ONES) >> 7 & ONES;
            eight.copy_from_slice(&flags.to_le_bytes()[..eight.len()]);
        }
    }

    /// The numbers below a limit.
    pub fn below(limit: usize) -> Bits {
        Bits(
            [0, 1, 2].map(|index| match limit.saturating_sub(64 * index) {
                count @ 0..64 => (1 << count) - 1,
                _ => u64::MAX,
            }),
        )
    }

    #[inline]
    pub fn is_empty(self) -> bool {
        self.0[0] | self.0[1] | self.0[2] == 0
    }

    #[inline]
    pub fn has(self, number: usize) -> bool {
        self.0[number / 64] >> (number % 64) & 1 == 1
    }

    #[inline]
    pub fn put(&mut self, number: usize) {
        self.0[number / 64] |= 1 << (number % 64);
    }

    #[inline]
    pub fn with(mut self, number: usize) -> Bits {
        self.put(number);
        self
    }

    #[inline]
    pub fn join(&mut self, other: Bits) {
        *self = self.joined(other);
    }

    /// The numbers in either set.
    #[inline]
    pub fn joined(self, other: Bits) -> Bits {
        self.each(other, |word, other| word | other)
    }

    /// The numbers in both sets.
    #[inline]
    pub fn shared(self, other: Bits) -> Bits {
        self.each(other, |word, other| word & other)
    }

    /// The numbers that another set lacks.
    #[inline]
    pub fn without(self, other: Bits) -> Bits {
        self.each(other, |word, other| word & !other)
    }

    #[inline]
    fn each(self, other: Bits, both: impl Fn(u64, u64) -> u64) -> Bits {
        Bits([0, 1, 2].map(|index| both(self.0[index], other.0[index])))
    }

    #[inline]
    pub fn lies_in(self, other: Bits) -> bool {
        self.without(other).is_empty()
    }

    #[inline]
    pub fn meets(self, other: Bits) -> bool {
        !self.shared(other).is_empty()
    }

    /// How many numbers are in the set.
    pub fn count(self) -> usize {
        self.0.iter().map(|word| word.count_ones() as usize).sum()
    }

    /// The smallest number in the set.
    #[inline]
    pub fn first(self) -> Option<usize> {
        let index = self.0.iter().position(|&word| word != 0)?;
        Some(64 * index + self.0[index].trailing_zeros() as usize)
    }

    /// Does something with each number in the set, rising.
    #[inline]
    pub fn for_each(self, mut each: impl FnMut(usize)) {
        self.all(|number| {
            each(number);
            true
        });
    }

    /// Whether something holds of each number in the set, rising.
    #[inline]
    pub fn all(self, mut holds: impl FnMut(usize) -> bool) -> bool {
        for (index, mut word) in self.0.into_iter().enumerate() {
            while word != 0 {
                if !holds(64 * index + word.trailing_zeros() as usize) {
                    return false;
                }
                word &= word - 1;
            }
        }
        true
    }

    /// The numbers in the set, rising.
    pub fn members(self) -> impl Iterator<Item = usize> {
        self.0
            .into_iter()
            .enumerate()
            .flat_map(|(index, mut word)| {
                std::iter::from_fn(move || {
                    let bit = word.trailing_zeros() as usize;
                    (word != 0).then(|| {
                        word &= word - 1;
                        64 * index + bit
                    })
                })
            })
    }
}
