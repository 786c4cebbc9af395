//! The slip that scrapped plates: a result is put on words whose value still has a reader to come.

use pictures::board_list::{BoardList, shares};
use pictures::live_ranges::LiveRanges;
use pictures::random::Random;
use pictures::routing::Routing;

/// Values are meant by their places in the list's live ranges, instructions by theirs in the list.
pub struct Slip {
    /// The result that is put on other words, and the instruction that gives it.
    pub moved: usize,
    pub writer: usize,
    /// The value that is lost by that: it is on these words and still to be read.
    pub lost: usize,
    /// The first instruction that wants it from there; the instruction count where only an output does.
    pub reader: usize,
}

impl Slip {
    /// A slip that a list with these live ranges allows, by these numbers; none where it allows none.
    pub fn any(list: &BoardList, ranges: &LiveRanges, random: &mut Random) -> Option<Slip> {
        let (count, values) = (ranges.instructions, ranges.values.len());
        let first = random.below(count.max(1));
        let mut places = (first..count).chain(0..first);
        places.find_map(|writer| {
            let slip = |lost: usize| Slip::of(list, ranges, writer, lost);
            let mut slips: Vec<Slip> = (0..values).filter_map(slip).collect();
            match slips.len() {
                0 => None,
                some => Some(slips.swap_remove(random.below(some))),
            }
        })
    }

    /// The result of this instruction put on the first words of this value, if that spoils it and nothing else.
    fn of(list: &BoardList, ranges: &LiveRanges, writer: usize, lost: usize) -> Option<Slip> {
        let values = &ranges.values;
        let moved = values.len() - ranges.instructions + writer;
        let earlier = values[lost].born.is_none_or(|born| born < writer);
        if !earlier || values[lost].words < values[moved].words {
            return None;
        }
        let address = values[lost].address;
        let taken = address..address + values[moved].words;
        let reads = |&place: &usize| {
            let operands = &list.instructions[place].operands;
            operands.iter().any(|operand| shares(operand, &taken))
        };
        let output = values[lost].output && list.outputs.iter().any(|word| taken.contains(word));
        let reader = (writer + 1..ranges.held(&values[lost]).end)
            .find(reads)
            .or(output.then_some(ranges.instructions))?;
        // Whatever else is held while the moved result is stands on other words.
        let held = ranges.held(&values[moved]);
        let apart = |k: usize| {
            k == moved
                || k == lost
                || !shares(&values[k].span(), &taken)
                || !shares(&ranges.held(&values[k]), &held)
        };
        (0..values.len()).all(apart).then_some(Slip {
            moved,
            writer,
            lost,
            reader,
        })
    }

    /// The list with this slip, and its live ranges as the router thinks them to be.
    pub fn spoil(
        &self,
        routing: &Routing,
        list: &BoardList,
        ranges: &LiveRanges,
    ) -> (BoardList, LiveRanges) {
        let address = ranges.values[self.lost].address;
        let mut spoiled = routing.clone();
        spoiled.addresses[routing.order[self.writer]] = address;
        let mut ranges = ranges.clone();
        ranges.values[self.moved].address = address;
        (spoiled.list(list), ranges)
    }
}
