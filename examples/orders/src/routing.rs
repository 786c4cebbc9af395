//! Other words for the results of a version 1 list: words of its own for each.

use pictures::board_list::{BoardList, MOST_WORDS};
use pictures::random::Random;
use pictures::routing::{Routing, any_order};

/// At most this many words are left free in front of a result.
const GAP: usize = 3;

/// Any order and placement, by these numbers.
pub fn any(list: &BoardList, random: &mut Random) -> Routing {
    Routing {
        order: any_order(list, random),
        addresses: addresses(list, random),
    }
}

/// The results behind the arguments, in any sequence, with some words left free between them.
fn addresses(list: &BoardList, random: &mut Random) -> Vec<usize> {
    let mut left: Vec<usize> = (0..list.instructions.len()).collect();
    let mut addresses = vec![0; left.len()];
    let (mut spare, mut next) = (MOST_WORDS - list.words, list.arguments);
    while !left.is_empty() {
        let number = left.swap_remove(random.below(left.len()));
        let gap = random.below(GAP + 1).min(spare);
        spare -= gap;
        addresses[number] = next + gap;
        next += gap + list.instructions[number].result.len();
    }
    addresses
}
