//! Every single bit of every word of many pools, flipped, and every entry of every set on what that makes of the pool.

use crate::damage;
use crate::every::{self, Asked, Sets};
use crate::party::UNTOUCHED;
use crate::random::Random;
use model::entry;
use model::{Edit, Span};

/// What was flipped, and what came of it.
#[derive(Default)]
struct Tally {
    words: usize,
    flips: u64,
    sound: u64,
    calls: u64,
}

/// The nth pool: an empty one, one entry, a full one, one of hundreds, or any of up to 24 slots.
fn pool(random: &mut Random, nth: u64) -> Vec<u64> {
    let slots = if nth % 25 == 3 { 100 + random.below(200) } else { 1 + random.below(24) };
    let inserts = match nth % 5 {
        0 => 0,
        1 => 1,
        2 => slots,
        _ => return damage::pool(random, slots),
    };
    let mut words = vec![UNTOUCHED; 4 + 6 * slots as usize];
    entry::format(&mut words);
    for start in 0..inserts {
        let span = Span::excluded(start, start + random.below(5));
        entry::edit(&mut words, &Edit::Insert(span, random.next()));
    }
    words
}

/// Flips each bit of a pool in turn.
fn flip(sets: &Sets, words: &mut [u64], tally: &mut Tally) -> Result<(), String> {
    let asked = Asked { span: Span::excluded(0, 3), value: 9, bytes: &[7], room: 7 };
    for at in 0..words.len() {
        for bit in 0..64 {
            words[at] ^= 1 << bit;
            tally.flips += 1;
            tally.sound += u64::from(entry::check(words) == 0);
            tally.calls += every::entries(sets, words, &asked)
                .map_err(|difference| format!("bit {bit} of word {at} makes {words:?}: {difference}"))?;
            words[at] ^= 1 << bit;
        }
    }
    tally.words += words.len();
    Ok(())
}

/// Flips the bits of so many pools; counts what came of it.
pub fn run(sets: &Sets, pools: u64, seed: u64) -> Result<String, String> {
    let mut random = Random::new(seed);
    let mut tally = Tally::default();
    for nth in 0..pools {
        let mut words = pool(&mut random, nth);
        flip(sets, &mut words, &mut tally).map_err(|report| format!("seed {seed}, pool {nth}: {report}"))?;
    }
    let Tally { words, flips, sound, calls } = tally;
    let refused = flips - sound;
    Ok(format!(
        "flipped {flips} bits of {words} words in {pools} pools (seed {seed}): {refused} refused, {sound} still sound, \
         {calls} calls as the model's"
    ))
}
