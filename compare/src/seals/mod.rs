//! Several sealed ranges (request Twelve). What a range refuses is reckoned here by the
//! ends of ranges and rows, apart from the second program, which looks at each byte.

pub mod added;
pub mod damage;
pub mod images;
pub mod ranges;
pub mod runs;

use crate::random::Random;
use model::Seal;

/// Whether a range has a byte of a row that starts at an address.
pub fn meets((start, length): Seal, row: i128, row_bytes: i128) -> bool {
    let (start, end) = (start as i128, start as i128 + length as i128);
    length > 0 && start < row + row_bytes && row < end
}

/// Some range with bytes from `low` on and before `high`, or with none.
pub fn range_within(random: &mut Random, low: u64, high: u64) -> Seal {
    let start = random.range(low, high);
    (start, random.range(0, high - start))
}
