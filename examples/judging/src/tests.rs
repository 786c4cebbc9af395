//! What is asked of a router's list and of the slip in it, stated apart from the code that makes them.

use std::ops::Range;

use pictures::board_list::{self, BoardList};
use pictures::examples;
use pictures::live_ranges::{LiveRanges, inputs};
use pictures::points::POINTS;
use pictures::random::Random;
use pictures::routing::Routing;

use crate::proposal::propose;
use crate::slip::Slip;
use crate::verdict::{Found, Function};

/// A router's list, and the same with a slip where it allows one.
struct Case<'a> {
    function: &'a Function<'a>,
    routing: &'a Routing,
    proposed: BoardList,
    slip: Option<(Slip, BoardList)>,
}

fn cases_of(table: &[u8], id: u16, seeds: Range<u64>, test: impl Fn(&Case)) {
    let code = board_list::compile(table, id, 1).unwrap();
    let function = Function {
        table,
        id,
        list: BoardList::read(&code),
        code,
    };
    let inputs = inputs(table, id);
    for seed in seeds {
        let mut random = Random::new(seed);
        let routing = propose(&function.list, &inputs, &mut random);
        let proposed = routing.list(&function.list);
        let ranges = LiveRanges::new(&proposed, &inputs);
        let slip = Slip::any(&proposed, &ranges, &mut random);
        test(&Case {
            function: &function,
            slip: slip.map(|slip| {
                let (spoiled, _) = slip.spoil(&routing, &function.list, &ranges);
                (slip, spoiled)
            }),
            routing: &routing,
            proposed,
        });
    }
}

/// Some lists for each function of examples/.
fn each(test: impl Fn(&Case)) {
    for (table, id) in examples::functions() {
        cases_of(&table, id, 0..4, &test);
    }
}

/// The last place at which each word of version 1's list is held when its instructions stand in this order; none for an argument's
/// that is never held.
fn held_until(list: &BoardList, order: &[usize]) -> Vec<Option<usize>> {
    let mut until = vec![None; list.words];
    for (place, &number) in order.iter().enumerate() {
        let instruction = &list.instructions[number];
        for words in instruction.operands.iter().chain([&instruction.result]) {
            until[words.clone()].fill(Some(place));
        }
    }
    for &output in &list.outputs {
        until[output] = Some(order.len());
    }
    // A value is held whole: its words as long as any of them.
    for instruction in &list.instructions {
        let words = &mut until[instruction.result.clone()];
        let last = words.iter().copied().max().unwrap();
        words.fill(last);
    }
    until
}

/// The rule word by word: each result on the highest free words below the ceiling; none where one finds none.
fn by_the_rule(list: &BoardList, order: &[usize], ceiling: usize) -> Option<Vec<usize>> {
    let until = held_until(list, order);
    let mut addresses = vec![0; order.len()];
    // For each word below the ceiling, the last place at which what is on it is held.
    let mut busy = vec![None; ceiling];
    busy[..list.arguments].copy_from_slice(&until[..list.arguments]);
    for (place, &number) in order.iter().enumerate() {
        let result = list.instructions[number].result.clone();
        let free = |address: &usize| {
            let words = &busy[*address..*address + result.len()];
            words.iter().all(|&until| until < Some(place))
        };
        let last = ceiling.checked_sub(result.len())?;
        let address = (0..=last).rev().find(free)?;
        addresses[number] = address;
        busy[address..address + result.len()].fill(until[result.start]);
    }
    Some(addresses)
}

/// The first instruction of a proposed list that reads other words than version 1 does, or the instruction count where only an output does.
fn first_fault(own: &BoardList, list: &BoardList, order: &[usize]) -> Option<usize> {
    // For each word, the word of version 1 that it holds.
    let mut holds = vec![None; list.words];
    for word in 0..own.arguments {
        holds[word] = Some(word);
    }
    for (place, (instruction, &number)) in list.instructions.iter().zip(order).enumerate() {
        let carried = &own.instructions[number];
        for (operand, wanted) in instruction.operands.iter().zip(&carried.operands) {
            if !holds[operand.clone()]
                .iter()
                .copied()
                .eq(wanted.clone().map(Some))
            {
                return Some(place);
            }
        }
        for (word, held) in instruction.result.clone().zip(carried.result.clone()) {
            holds[word] = Some(held);
        }
    }
    let mut outputs = list.outputs.iter().zip(&own.outputs);
    let right = outputs.all(|(&word, &wanted)| holds[word] == Some(wanted));
    (!right).then_some(order.len())
}

#[test]
fn each_result_takes_the_highest_gap_below_the_lowest_ceiling() {
    each(|case| {
        let (list, order) = (&case.function.list, &case.routing.order[..]);
        let words = case.proposed.words;
        assert_eq!(
            by_the_rule(list, order, words).as_ref(),
            Some(&case.routing.addresses)
        );
        assert!((list.arguments..words).all(|ceiling| by_the_rule(list, order, ceiling).is_none()));
    });
}

#[test]
fn it_is_neither_the_compilers_list_nor_one_with_words_of_its_own() {
    let table = examples::table("heat_exchanger");
    for id in [5, 6] {
        let version_2 = BoardList::read(&board_list::compile(&table, id, 2).unwrap());
        cases_of(&table, id, 0..20, |case| {
            assert_ne!(case.proposed, version_2);
            assert!(case.proposed.words < case.function.list.words);
        });
    }
}

#[test]
fn every_instruction_of_the_routers_list_reads_what_version_1_reads() {
    each(|case| {
        let fault = first_fault(&case.function.list, &case.proposed, &case.routing.order);
        assert_eq!(fault, None);
    });
}

#[test]
fn a_slip_moves_one_result_and_its_reader_is_the_first_at_fault() {
    each(|case| {
        let Some((slip, spoiled)) = &case.slip else {
            return;
        };
        let (list, order) = (&case.function.list, &case.routing.order[..]);
        assert!(slip.writer < slip.reader);
        assert_eq!(first_fault(list, spoiled, order), Some(slip.reader));
        let pairs = case.proposed.instructions.iter().zip(&spoiled.instructions);
        let moved = pairs
            .enumerate()
            .filter(|(_, (own, other))| own.result != other.result);
        assert!(moved.map(|(place, _)| place).eq([slip.writer]));
    });
}

#[test]
fn there_is_a_slip_in_each_function_of_the_heat_exchanger() {
    let table = examples::table("heat_exchanger");
    for id in 1..=6 {
        cases_of(&table, id, 0..20, |case| {
            assert!(case.slip.is_some(), "function {id}")
        });
    }
}

#[test]
fn the_library_accepts_the_list_and_finds_the_slip() {
    each(|case| {
        let (function, order) = (case.function, &case.routing.order[..]);
        let count = function.list.instructions.len();
        assert_eq!(function.judged(&case.proposed, order), Ok(count));
        if let Some((slip, spoiled)) = &case.slip {
            let found = function.found(order, &case.proposed, spoiled, slip);
            let same = POINTS * function.list.outputs.len();
            assert!(matches!(found, Ok(Found { same: words, .. }) if words == same));
        }
    });
}

/// As examples/README.md has it.
#[test]
fn a_slip_may_show_at_few_points() {
    cases_of(&examples::table("heat_exchanger"), 6, 6..7, |case| {
        let (slip, spoiled) = case.slip.as_ref().unwrap();
        let order = &case.routing.order;
        let found = case.function.found(order, &case.proposed, spoiled, slip);
        assert_eq!(found.unwrap().differing, 2);
    });
}

#[test]
fn what_is_not_as_proved_is_said() {
    cases_of(&examples::table("heat_exchanger"), 5, 0..1, |case| {
        let (function, order) = (case.function, &case.routing.order[..]);
        let (slip, spoiled) = case.slip.as_ref().unwrap();
        let reader = slip.reader;
        assert_eq!(
            function.found(order, spoiled, spoiled, slip),
            Err(format!("the router's list is refused 29 at {reader}"))
        );
        assert_eq!(
            function.found(order, &case.proposed, &case.proposed, slip),
            Err("the spoiled list is accepted".into())
        );
        let later = Slip {
            reader: reader + 1,
            ..*slip
        };
        assert_eq!(
            function.found(order, &case.proposed, spoiled, &later),
            Err(format!(
                "the spoiled list is refused 29 at {reader}, not refused 29 at {}",
                reader + 1
            ))
        );
    });
}
