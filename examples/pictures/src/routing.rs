//! The instructions of a version 1 list in another order that respects the reads, with other words for their results.

use std::collections::BTreeSet;

use crate::board_list::{BoardList, Instruction};
use crate::random::Random;

#[derive(Clone)]
pub struct Routing {
    /// The instructions by their numbers in version 1, which count from 0.
    pub order: Vec<usize>,
    /// The address of each one's result, by number.
    pub addresses: Vec<usize>,
}

/// The instruction of a version 1 list that writes a word; none for an argument's.
pub fn writer(list: &BoardList, word: usize) -> Option<usize> {
    // The results stand one behind the other.
    let number = list.instructions.partition_point(|i| i.result.end <= word);
    (word >= list.arguments).then_some(number)
}

/// For each instruction of a version 1 list, those whose results it reads, each once.
pub fn reads(list: &BoardList) -> Vec<Vec<usize>> {
    let read = |instruction: &Instruction| {
        // The compiler's operands lie within one value, so that the first word tells which.
        let operands = instruction.operands.iter();
        let numbers: BTreeSet<usize> = operands.filter_map(|o| writer(list, o.start)).collect();
        numbers.into_iter().collect()
    };
    list.instructions.iter().map(read).collect()
}

impl Routing {
    /// The instructions in this order, each word of a result where that now stands.
    pub fn list(&self, list: &BoardList) -> BoardList {
        let moved = |word: usize| match writer(list, word) {
            Some(number) => self.addresses[number] + word - list.instructions[number].result.start,
            None => word,
        };
        let instruction = |&number: &usize| {
            let Instruction {
                kind,
                ty,
                result,
                operands,
                constant,
            } = list.instructions[number].clone();
            let address = self.addresses[number];
            let operands = operands
                .into_iter()
                .map(|o| moved(o.start)..moved(o.start) + o.len());
            Instruction {
                kind,
                ty,
                result: address..address + result.len(),
                operands: operands.collect(),
                constant,
            }
        };
        let instructions: Vec<Instruction> = self.order.iter().map(instruction).collect();
        let ends = instructions.iter().map(|i| i.result.end);
        BoardList {
            arguments: list.arguments,
            words: ends.fold(list.arguments, usize::max),
            outputs: list.outputs.iter().map(|&word| moved(word)).collect(),
            instructions,
        }
    }
}

/// Always any instruction whose reads all stand there already. Where there is more than one order, it is not version 1's.
pub fn any_order(list: &BoardList, random: &mut Random) -> Vec<usize> {
    let reads = reads(list);
    let mut readers = vec![vec![]; reads.len()];
    for (number, reads) in reads.iter().enumerate() {
        for &read in reads {
            readers[read].push(number);
        }
    }
    let mut missing: Vec<usize> = reads.iter().map(Vec::len).collect();
    let mut ready: BTreeSet<usize> = (0..reads.len())
        .filter(|&number| missing[number] == 0)
        .collect();
    let (mut order, mut own) = (vec![], true);
    while !ready.is_empty() {
        // As long as all is as in version 1, its next one stands first and is passed over where another is ready.
        let from = usize::from(own && ready.len() > 1);
        let pick = from + random.below(ready.len() - from);
        let number = *ready.iter().nth(pick).expect("one of the ready ones");
        own &= number == order.len();
        ready.remove(&number);
        order.push(number);
        for &reader in &readers[number] {
            missing[reader] -= 1;
            if missing[reader] == 0 {
                ready.insert(reader);
            }
        }
    }
    order
}

/// What is asked of an order, stated apart from the code that makes it.
#[cfg(test)]
mod tests {
    use super::*;
    use crate::board_list;
    use crate::examples;

    fn each(test: impl Fn(&BoardList, &[usize])) {
        for (table, id) in examples::functions() {
            let list = BoardList::read(&board_list::compile(&table, id, 1).unwrap());
            for seed in 0..4 {
                test(&list, &any_order(&list, &mut Random::new(seed)));
            }
        }
    }

    /// Whether one instruction of a version 1 list reads a word of another's result.
    fn reads(reader: &Instruction, read: &Instruction) -> bool {
        let shares = |operand: &_| board_list::shares(operand, &read.result);
        reader.operands.iter().any(shares)
    }

    #[test]
    fn the_order_has_each_instruction_once() {
        each(|list, order| {
            let mut numbers = order.to_vec();
            numbers.sort();
            assert!(numbers.into_iter().eq(0..list.instructions.len()));
        });
    }

    #[test]
    fn each_instruction_stands_after_all_that_it_reads() {
        each(|list, order| {
            let at = |place: usize| &list.instructions[order[place]];
            for place in 0..order.len() {
                // Only those with operands: 4,080 constants read nothing.
                if !at(place).operands.is_empty() {
                    assert!((place..order.len()).all(|later| !reads(at(place), at(later))));
                }
            }
        });
    }

    #[test]
    fn it_is_another_order_wherever_there_is_one() {
        each(|list, order| {
            // There is no other exactly when each instruction reads the one before it.
            let only = list
                .instructions
                .windows(2)
                .all(|pair| reads(&pair[1], &pair[0]));
            assert_eq!(only, order.iter().copied().eq(0..list.instructions.len()));
        });
    }
}
