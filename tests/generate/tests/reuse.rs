//! Version 2's lists: placements worked out by hand, 02's rules asked of every list word by word, and runs of
//! both versions.

use generate::codes::{Code, random_code_2, result_words};
use generate::graph::{Function, Graph};
use generate::random::Random;
use generate::tables::random_graph;
use generate::{heat_exchanger, reuse, shapes};
use independent::{Meaning, Refusal, check_code, compile, compile_version, ports, run, type_words};

fn last(graph: &Graph) -> u16 {
    graph.functions.last().expect("a function").id
}

/// The last function's list of a version.
fn code(graph: &Graph, version: u16) -> Result<Vec<u8>, Refusal> {
    compile_version(&graph.to_bytes(), last(graph), version, usize::MAX)
}

/// The word count and the results' addresses in version 2.
fn placed(graph: &Graph) -> (u16, Vec<u16>) {
    let code = Code::from_bytes(&code(graph, 2).expect("within the limits"));
    let results = code
        .instructions
        .iter()
        .map(|instruction| instruction.result);
    (code.words, results.collect())
}

#[test]
fn placed_by_hand() {
    // V 0-2, S 3, M 4-19, S 20, V 21-23; only 3 and 20 are read, the others are free from the start. The last
    // vector skips the gap of one word before its operand, which stands at 1.
    assert_eq!(placed(&reuse::unread()), (24, vec![0, 0, 4, 1, 1, 2]));
    // S 0, V 1-3, S 4, M 5-20; 4 alone is no output and free behind the first instruction.
    assert_eq!(
        placed(&reuse::inputs_as_outputs()),
        (27, vec![21, 4, 21, 24])
    );
    // The first result is at 2, read by the next instruction and by the last: it stays.
    assert_eq!(placed(&reuse::read_twice()), (4, vec![2, 0, 3, 1, 0]));
    // S 0, V 1-3, S 4, S 5, V 6-8. The third result, an output, lies over the end of an input and a whole one;
    // the vector from 5 does not fit into words 0 and 1, the two scalars behind it do.
    assert_eq!(placed(&reuse::gaps()), (12, vec![9, 1, 2, 5, 6, 0, 1]));
}

/// A value of a version 1 list: its words there, its first instruction and where it is read.
struct Value {
    first: usize,
    words: usize,
    born: Option<usize>,
    readers: Vec<usize>,
    output: bool,
    /// Its first word in version 2.
    address: usize,
}

impl Value {
    /// Whether its words are held at this instruction.
    fn held(&self, at: usize) -> bool {
        self.born.is_none_or(|born| born <= at)
            && (self.output
                || self.born == Some(at)
                || self.readers.iter().any(|&reader| reader >= at))
    }

    fn has(&self, word: usize) -> bool {
        (self.first..self.first + self.words).contains(&word)
    }
}

/// Asks 02's rules of a version 2 list, with the values as the version 1 list has them.
fn ask_rules(function: &Function, one: &Code, two: &Code) {
    let mut values: Vec<Value> = vec![];
    let mut next = 0;
    let value = |next: &mut usize, words: usize, born| {
        *next += words;
        Value {
            first: *next - words,
            words,
            born,
            readers: vec![],
            output: false,
            address: *next - words,
        }
    };
    for &ty in &function.inputs {
        values.push(value(&mut next, type_words(ty), None));
    }
    for (at, instruction) in one.instructions.iter().enumerate() {
        let types = ports(instruction.kind, instruction.ty)
            .expect("a legal pair")
            .operands;
        for (&operand, &ty) in instruction.operands.iter().zip(types) {
            for word in operand as usize..operand as usize + type_words(ty) {
                let read = values
                    .iter_mut()
                    .find(|value| value.has(word))
                    .expect("a value");
                read.readers.push(at);
            }
        }
        let words = result_words(instruction.kind, instruction.ty);
        values.push(value(&mut next, words, Some(at)));
    }
    for &output in &one.outputs {
        let value = values.iter_mut().find(|value| value.has(output as usize));
        value.expect("a value").output = true;
    }
    let inputs = function.inputs.len();
    let moved = |values: &[Value], word: u16| {
        let value = values
            .iter()
            .find(|value| value.has(word as usize))
            .expect("a value");
        (value.address + word as usize - value.first) as u16
    };

    assert_eq!(two.version, 2);
    assert_eq!(two.argument_words, one.argument_words);
    assert_eq!(two.instructions.len(), one.instructions.len());
    let mut highest = two.argument_words as usize;
    for (at, (own, other)) in two.instructions.iter().zip(&one.instructions).enumerate() {
        assert_eq!(
            (own.kind, own.ty, &own.constant),
            (other.kind, other.ty, &other.constant)
        );
        let operands: Vec<u16> = other
            .operands
            .iter()
            .map(|&word| moved(&values, word))
            .collect();
        assert_eq!(own.operands, operands);
        // Who holds each word, from the definition alone.
        let mut holders = vec![0; highest + 16];
        for value in values[..inputs + at].iter().filter(|value| value.held(at)) {
            for word in value.address..value.address + value.words {
                holders[word] += 1;
            }
        }
        assert!(
            holders.iter().all(|&count| count <= 1),
            "two held values share a word"
        );
        let words = values[inputs + at].words;
        let lowest = (0..=highest).find(|&first| {
            holders[first..first + words]
                .iter()
                .all(|&count| count == 0)
        });
        assert_eq!(Some(own.result as usize), lowest, "the lowest gap");
        values[inputs + at].address = own.result as usize;
        highest = highest.max(own.result as usize + words);
        // The lengths of the held values and the free words make up the highest word plus one.
        holders[own.result as usize..][..words].fill(1);
        let lengths: usize = values[..=inputs + at]
            .iter()
            .filter(|v| v.held(at))
            .map(|v| v.words)
            .sum();
        let free = holders[..highest]
            .iter()
            .filter(|&&count| count == 0)
            .count();
        assert_eq!(lengths + free, highest);
    }
    assert_eq!(two.words as usize, highest);
    let outputs: Vec<u16> = one
        .outputs
        .iter()
        .map(|&word| moved(&values, word))
        .collect();
    assert_eq!(two.outputs, outputs);
}

/// The same output words by both versions, and the words behind the count as they were.
fn same_runs(random: &mut Random, one: &[u8], two: &[u8]) -> (Vec<u64>, Vec<u64>) {
    let arguments: Vec<u64> = (0..one[5]).map(|_| random.finite()).collect();
    let mark = 0xABCD;
    let (mut work, mut out) = (vec![mark; 8192], vec![0; 128]);
    let (mut work_2, mut out_2) = (vec![mark; 8192], vec![0; 128]);
    let count = run(one, &arguments, &mut work, &mut out).expect("a run");
    assert_eq!(run(two, &arguments, &mut work_2, &mut out_2), Ok(count));
    assert_eq!(out, out_2);
    let words = check_code(two).expect("well formed").words;
    assert!(work_2[words..].iter().all(|&word| word == mark));
    out.truncate(count);
    (arguments, out)
}

/// The rules and the runs of each function of a graph that both versions have.
fn ask(random: &mut Random, graph: &Graph) -> usize {
    let table = graph.to_bytes();
    let mut asked = 0;
    for function in &graph.functions {
        let Ok(one) = compile(&table, function.id, usize::MAX) else {
            continue;
        };
        let two = compile_version(&table, function.id, 2, usize::MAX)
            .expect("no more words than version 1");
        assert_eq!(
            two.len(),
            one.len() + 2 * check_code(&one).expect("well formed").instructions
        );
        assert!(check_code(&two).is_ok());
        let (list_1, list_2) = (Code::from_bytes(&one), Code::from_bytes(&two));
        assert_eq!(list_2.to_bytes(), two);
        let (arguments, out) = same_runs(random, &one, &two);
        if list_1.instructions.len() <= 700 {
            ask_rules(function, &list_1, &list_2);
            assert_eq!(out, Meaning::of(&table, function.id).on(&arguments));
            asked += 1;
        }
    }
    asked
}

#[test]
fn rules_of_known_shapes() {
    let mut random = Random::new(1);
    let mut asked = ask(&mut random, &heat_exchanger::graph());
    for graph in reuse::small().iter().chain(&shapes::all_shapes()) {
        if independent::check(&graph.to_bytes()).is_ok() {
            asked += ask(&mut random, graph);
        }
    }
    assert!(asked > 60);
}

#[test]
fn rules_of_random_tables() {
    let mut random = Random::new(2);
    for _ in 0..400 {
        let graph = random_graph(&mut random);
        ask(&mut random, &graph);
    }
}

fn refused<T>(number: u32) -> Result<T, Refusal> {
    Err(Refusal { number, place: 0 })
}

#[test]
fn limits() {
    let words =
        |graph: &Graph| code(graph, 2).map(|code| check_code(&code).expect("well formed").words);
    for (inputs, scalars, wanted) in [
        (7, 0, Ok(8192)),
        (7, 1, refused(16)),
        (6, 15, Ok(8191)),
        (6, 16, Ok(8192)),
        (6, 17, refused(16)),
        (0, 1, Ok(8081)),
        (8, 0, refused(16)),
    ] {
        let graph = reuse::held(inputs, scalars, 0);
        assert_eq!(words(&graph), wanted);
        assert_eq!(code(&graph, 1), refused(16));
    }
    // 15 before 16.
    assert_eq!(words(&reuse::held(7, 0, 12)), Ok(8192));
    assert_eq!(words(&reuse::held(7, 1, 12)), refused(16));
    assert_eq!(words(&reuse::held(7, 0, 13)), refused(15));
    assert_eq!(words(&reuse::held(7, 1, 13)), refused(15));
    for graph in [reuse::matrix_chains(255, 3), reuse::matrix_chains(255, 16)] {
        assert_eq!(code(&graph, 1), refused(16));
        assert_eq!(words(&graph), Ok(48));
    }
    let graph = reuse::matrices_called(16);
    assert_eq!(words(&graph), Ok(16));
    let length = code(&graph, 2).expect("within the limits").len();
    assert_eq!(length, 12 + 4080 * 132 + 32);
    let compile =
        |available| compile_version(&graph.to_bytes(), 2, 2, available).map(|code| code.len());
    assert_eq!(compile(length), Ok(length));
    assert_eq!(compile(length - 1), refused(17));
}

#[test]
fn lists() {
    for list in reuse::lists().iter().chain(&reuse::overlapping()) {
        assert!(check_code(&list.to_bytes()).is_ok(), "{list:?}");
    }
    for list in reuse::malformed_lists() {
        assert!(check_code(&list.to_bytes()).is_err(), "{list:?}");
    }
    let longest = reuse::longest_list().to_bytes();
    assert_eq!(longest.len(), 12 + 4096 * 132 + 256);
    assert!(check_code(&longest).is_ok());
    let mut random = Random::new(3);
    for _ in 0..2000 {
        let list = random_code_2(&mut random);
        assert!(check_code(&list.to_bytes()).is_ok(), "{list:?}");
    }
}
