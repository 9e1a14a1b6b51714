//! Lengths of lent areas: mostly what is needed or a little more, now and then one short, none, or the longest.

use super::chance::Chance;
use crate::areas::Lent;

pub fn length(chance: &mut Chance, lent: &Lent) -> usize {
    let (need, longest) = (lent.need, lent.places.longest());
    match chance.below(200) {
        0..=1 => need - 1,
        2 => 0,
        3 => chance.below(need),
        4..=150 => need,
        151..=190 => need + chance.between(1, 20),
        191..=197 => need + chance.between(1, 400),
        198 => longest - chance.below(2),
        _ => chance.between(need, longest),
    }
}
