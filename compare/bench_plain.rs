//! The soundness check as a Rust programmer would write it, on the same words, to hold the library's check against.

/// The slots, and which of them have been claimed.
struct Check<'a> {
    slots: &'a [u64],
    claimed: [bool; 4096],
}

/// Levels, size and max of a subtree.
type Shape = (u64, u64, u64);

impl<'a> Check<'a> {
    /// The six words of a slot that is one and wasn't claimed before, which claims it.
    fn claim(&mut self, slot: u64) -> Option<&'a [u64]> {
        if slot > (self.slots.len() / 6) as u64 {
            return None;
        }
        let at = 6 * (slot as usize).checked_sub(1)?;
        let claimed = std::mem::replace(&mut self.claimed[slot as usize], true);
        (!claimed).then(|| &self.slots[at..at + 6])
    }

    /// The shape of the subtree in a slot, between two bounds and no higher than allowed, if all of it is right.
    fn tree(&mut self, slot: u64, levels: u64, low: Option<(u64, u64)>, high: Option<(u64, u64)>) -> Option<Shape> {
        if slot == 0 {
            return Some((0, 0, 0));
        }
        let words = self.claim(slot).filter(|_| levels > 0)?;
        let key = (words[0], words[1]);
        if low.is_some_and(|low| low >= key) || high.is_some_and(|high| key >= high) {
            return None;
        }
        let left = self.tree(words[4] & 65535, levels - 1, low, Some(key))?;
        let right = self.tree(words[4] >> 16, levels - 1, Some(key), high)?;
        let (height, size, max) = (left.0.max(right.0), left.1 + right.1 + 1, words[1].max(left.2).max(right.2));
        let exact = left.0.abs_diff(right.0) <= 1 && words[5] == height + 65536 * size && words[3] == max;
        exact.then_some((height + 1, size, max))
    }

    /// How many slots are chained as free from the first on, if all of them are right.
    fn chain(&mut self, first: u64) -> Option<u64> {
        let (mut slot, mut count) = (first, 0);
        while slot != 0 {
            let words = self.claim(slot)?;
            if words[0] | words[1] | words[2] | words[3] | words[5] != 0 {
                return None;
            }
            slot = words[4];
            count += 1;
        }
        Some(count)
    }
}

/// The number of the check: 0, 10 or 11.
#[no_mangle]
#[inline(never)]
pub fn bench_plain_check(pool: &[u64]) -> u64 {
    let length = pool.len();
    if length < 10 || (length - 4) % 6 != 0 || (length - 4) / 6 > 4095 {
        return 10;
    }
    let mut check = Check { slots: &pool[4..], claimed: [false; 4096] };
    let tree = check.tree(pool[0], 16, None, None);
    let free = check.chain(pool[1]);
    match (tree, free) {
        (Some((_, size, _)), Some(free)) if size == pool[2] && pool[3] == 0 => {
            if size + free == (length as u64 - 4) / 6 {
                0
            } else {
                11
            }
        }
        _ => 11,
    }
}
