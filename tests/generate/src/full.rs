//! Random functions that fill the words of version 1.

use independent::{MOST_OPERATIONS, MOST_WORDS, type_words};

use crate::graph::{Function, Graph};
use crate::kinds::ADDITION;
use crate::random::Random;
use crate::tables::{Readable, random_graph};

const INPUTS: [u8; 3] = [1, 2, 3];
const MOST_NODES: usize = 256;
/// Calls of the last function; its other nodes are scalars that fill what is left.
const MOST_CALLS: usize = 200;
/// Bytes of a table that leave room for one more function.
const MOST_BYTES: usize = 50_000;

fn words_of(types: &[u8]) -> u64 {
    types.iter().map(|&ty| type_words(ty) as u64).sum()
}

/// The operations and words of a function, those of its inputs left out.
fn sums(table: &[u8], function: &Function) -> (u64, u64) {
    let operations = independent::operations(table, function.id);
    let words = independent::words(table, function.id);
    (
        operations.expect("an accepted table"),
        words.expect("an accepted table") - words_of(&function.inputs),
    )
}

/// A random graph with a function that fits into the limits a few times, and the sums of each function.
fn callees(random: &mut Random) -> (Graph, Vec<(u64, u64)>) {
    loop {
        let mut graph = random_graph(random);
        graph.functions.truncate(15);
        while graph.to_bytes().len() > MOST_BYTES {
            graph.functions.pop();
        }
        let table = graph.to_bytes();
        let sums: Vec<(u64, u64)> = graph.functions.iter().map(|f| sums(&table, f)).collect();
        let few_times =
            |&(operations, words): &(u64, u64)| (50..1500).contains(&operations) && words < 3000;
        if sums.iter().any(few_times) {
            return (graph, sums);
        }
    }
}

/// A graph whose last function calls the others as long as one fits, and then adds scalars until it has 8,192
/// words or somewhat less, or 4,096 operations, or 256 nodes.
pub fn random_full(random: &mut Random) -> Graph {
    let (mut graph, sums) = callees(random);
    let unused = |id: &u16| graph.functions.iter().all(|f| f.id != *id);
    let id = (1..).find(unused).expect("at most 15 are used");
    let mut function = Function::new(id, &INPUTS);
    let mut readable = Readable::inputs(random, &INPUTS);
    let (mut operations, mut words) = (0, words_of(&INPUTS));
    let most_words = MOST_WORDS - *random.pick(&[0, 0, 1, 100, 3000]);
    while function.nodes.len() < MOST_NODES && operations < MOST_OPERATIONS && words < most_words {
        let fits = |&k: &usize| {
            operations + 1 + sums[k].0 <= MOST_OPERATIONS && words + sums[k].1 <= most_words
        };
        let mut fitting: Vec<usize> = (0..sums.len()).filter(fits).collect();
        // Mostly the longest.
        fitting.sort_by_key(|&k| sums[k].0);
        let callee = match random.chance(70) {
            true => fitting.last().copied(),
            false => (!fitting.is_empty()).then(|| *random.pick(&fitting)),
        };
        operations += 1;
        match callee.filter(|_| function.nodes.len() < MOST_CALLS) {
            Some(k) => {
                let callee = &graph.functions[k];
                let arguments = readable.pick_all(random, &callee.inputs);
                let result = function.call(callee.id, &arguments.expect("all types are inputs"));
                for (port, output) in (0..).zip(&callee.outputs) {
                    readable.add(output.0, result.port(port));
                }
                operations += sums[k].0;
                words += sums[k].1;
            }
            None => {
                let operands = readable.pick_all(random, &[1, 1]);
                let sum = function.node(ADDITION, 1, &operands.expect("a scalar is an input"));
                readable.add(1, sum);
                words += 1;
            }
        }
    }
    for ty in [1, 2, 3, 1, 3] {
        let reference = readable.pick(random, ty).expect("all types are inputs");
        function.output(ty, reference);
    }
    if random.chance(50) {
        random.shuffle(&mut function.nodes);
    }
    graph.functions.push(function);
    graph
}
