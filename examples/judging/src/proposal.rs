//! A router's own list: version 1's instructions in another order, and words used again by a rule that is not ours.

use std::ops::Range;

use pictures::board_list::{BoardList, shares};
use pictures::live_ranges::LiveRanges;
use pictures::random::Random;
use pictures::routing::{Routing, any_order};

/// Any order that respects the reads, by these numbers. Each result takes the highest gap below a ceiling, while its own operands are
/// still held, and the ceiling is the lowest that leaves a gap for each.
pub fn propose(list: &BoardList, inputs: &[usize], random: &mut Random) -> Routing {
    let mut routing = Routing {
        order: any_order(list, random),
        addresses: list.instructions.iter().map(|i| i.result.start).collect(),
    };
    // The order alone decides who reads what when, so the live ranges may be taken with words of its own for each result.
    let ranges = LiveRanges::new(&routing.list(list), inputs);
    let addresses = (list.arguments..=list.words)
        .find_map(|ceiling| allocate(&ranges, ceiling))
        .expect("below version 1's word count there is a gap for each");
    for (&number, address) in routing.order.iter().zip(addresses) {
        routing.addresses[number] = address;
    }
    routing
}

/// An address for each result in turn; none where one finds no gap below the ceiling.
fn allocate(ranges: &LiveRanges, ceiling: usize) -> Option<Vec<usize>> {
    // The values that are held: until when, and on which words.
    let mut active: Vec<(usize, Range<usize>)> = vec![];
    let mut addresses = vec![];
    for value in &ranges.values {
        let address = match value.born {
            None => value.address,
            Some(place) => {
                active.retain(|(end, _)| *end > place);
                let address = highest_gap(&active, value.words, ceiling)?;
                addresses.push(address);
                address
            }
        };
        let end = ranges.held(value).end;
        active.push((end, address..address + value.words));
    }
    Some(addresses)
}

/// The highest address below the ceiling from which so many words are free.
fn highest_gap(active: &[(usize, Range<usize>)], words: usize, ceiling: usize) -> Option<usize> {
    let mut address = ceiling.checked_sub(words)?;
    // Below a value that is in the way: every address between has one of its words too.
    while let Some((_, held)) = active
        .iter()
        .find(|(_, held)| shares(held, &(address..address + words)))
    {
        address = held.start.checked_sub(words)?;
    }
    Some(address)
}
