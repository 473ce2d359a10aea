//! The 24 block sizes of source document 000, and those that a pool uses.

/// All sizes: number i, counted from 1, is 24 times 2^(i - 1), less 12.
pub const SIZES: [u32; 24] = [
    12,
    36,
    84,
    180,
    372,
    756,
    1_524,
    3_060,
    6_132,
    12_276,
    24_564,
    49_140,
    98_292,
    196_596,
    393_204,
    786_420,
    1_572_852,
    3_145_716,
    6_291_444,
    12_582_900,
    25_165_812,
    50_331_636,
    100_663_284,
    201_326_580,
];

/// A pool uses at most so many of them.
const MOST_IN_USE: usize = 12;

/// The sizes that a pool uses, the least first; at least one.
#[derive(Clone, Copy, Debug, PartialEq, Eq)]
pub struct Kinds {
    in_use: &'static [u32],
}

impl Kinds {
    /// The kinds for the greatest request M: the smallest that is at least M,
    /// and the next eleven below it, or all where there are fewer. `None` for
    /// an M of 0 or above the last size.
    pub fn up_to(greatest: u32) -> Option<Kinds> {
        if greatest == 0 {
            return None;
        }
        let top = SIZES.iter().position(|&kind| kind >= greatest)?;
        let lowest = (top + 1).saturating_sub(MOST_IN_USE);
        Some(Kinds {
            in_use: &SIZES[lowest..=top],
        })
    }

    pub fn as_slice(&self) -> &'static [u32] {
        self.in_use
    }

    pub fn top(&self) -> u32 {
        self.in_use[self.in_use.len() - 1]
    }

    /// The smallest kind in use that holds a request, if one does.
    pub fn round_up(&self, size: u32) -> Option<u32> {
        self.in_use.iter().copied().find(|&kind| kind >= size)
    }
}
