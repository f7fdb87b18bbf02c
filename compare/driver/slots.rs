//! Slot identity, read from the words before and after one edit alone: which slots became live or free, and that every
//! other entry kept its slot.

use model::pool::{HEADER_WORDS, SLOT_WORDS};

/// The six words of each slot; slot 1 comes first.
fn slots(words: &[u64]) -> impl Iterator<Item = &[u64]> {
    words[HEADER_WORDS..].chunks(SLOT_WORDS)
}

/// A live slot's shape word holds its size, which is never 0.
fn live(slot: &[u64]) -> bool {
    slot[5] != 0
}

/// After one insert or removal that was made: "an insert takes the first free slot", "a removal frees the removed
/// entry's own slot, which becomes the first free; every other entry keeps its slot number".
pub fn kept(before: &[u64], after: &[u64]) -> Result<(), String> {
    let mut turned = 0;
    for (number, (was, is)) in (1..).zip(slots(before).zip(slots(after))) {
        match (live(was), live(is)) {
            (true, true) if was[..3] != is[..3] => {
                return Err(format!("slot {number} holds another entry than before"))
            }
            (false, true) if before[1] != number => {
                return Err(format!("slot {number} was taken and was not the first free"))
            }
            (true, false) if after[1] != number => {
                return Err(format!("slot {number} was freed and is not the first free"))
            }
            (was_live, is_live) => turned += u64::from(was_live != is_live),
        }
    }
    if turned == 1 {
        Ok(())
    } else {
        Err(format!("{turned} slots became live or free by one edit"))
    }
}
