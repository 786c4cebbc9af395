//! Version 1's instructions in other orders and other words: an example by hand, the rules asked of every list word
//! by word, and lists that break one.

use generate::codes::Code;
use generate::full::random_full;
use generate::graph::{Function, Graph, input};
use generate::kinds::*;
use generate::random::Random;
use generate::reorder::{Broken, List, Order, Placement};
use generate::tables::random_graph;
use generate::{reuse, shapes};
use independent::{check_code, compile, run};

const S: u8 = 1;
const V: u8 = 2;

/// The parts of a vector, two sums and a constant that nothing reads.
fn small() -> Vec<u8> {
    let mut f = Function::new(1, &[V, S]);
    let parts = f.node(DECOMPOSEVECTOR, 0, &[input(0)]); // words 4 to 6
    let a = f.node(ADDITION, S, &[parts.port(2), input(1)]); // word 7
    f.constant(&[0.0]); // word 8
    let b = f.node(ADDITION, V, &[input(0), input(0)]); // words 9 to 11
    f.output(S, a);
    f.output(V, b);
    f.output(S, parts.port(1));
    let table = Graph { functions: vec![f] }.to_bytes();
    compile(&table, 1, usize::MAX).expect("within the limits")
}

#[test]
fn written_by_hand() {
    let list = List::new(&small());
    let code = list.write(&[3, 0, 2, 1], &[20, 8191, 4, 100]);
    let mut wanted = b"IFR\x02\x00\x04\x05\x00\x04\x00\x00\x20".to_vec();
    wanted.extend([1, 2, 100, 0, 0, 0, 0, 0]); // words 100 to 102
    wanted.extend([10, 0, 20, 0, 0, 0]); // words 20 to 22
    wanted.extend([5, 0, 4, 0, 0, 0, 0, 0, 0, 0, 0, 0]); // word 4
    wanted.extend([1, 1, 0xFF, 0x1F, 22, 0, 3, 0]); // word 8,191
    wanted.extend([0xFF, 0x1F, 100, 0, 101, 0, 102, 0, 21, 0]);
    assert_eq!(code.to_bytes(), wanted);
}

#[test]
fn orders_by_hand() {
    let mut random = Random::new(1);
    let list = List::new(&small());
    assert_eq!(list.order(&mut random, Order::Own), [0, 1, 2, 3]);
    assert_eq!(list.order(&mut random, Order::Last), [3, 2, 0, 1]);
    let (mut any, mut depth_first) = (vec![], vec![]);
    for _ in 0..400 {
        any.push(list.order(&mut random, Order::Any));
        let order = list.order(&mut random, Order::DepthFirst);
        let needed = order.iter().filter(|&&at| at != 2);
        assert!(needed.eq(&[0, 1, 3]));
        depth_first.push(order);
    }
    // All twelve orders in which 1 stands after 0, and all places of what no output needs.
    for (mut orders, wanted) in [(any, 12), (depth_first, 4)] {
        orders.sort();
        orders.dedup();
        assert_eq!(orders.len(), wanted);
    }
}

/// For each word below 8,300, how many values have it.
fn values_at(code: &Code) -> Vec<usize> {
    let mut values = vec![0; 8300];
    values[..code.argument_words as usize].fill(1);
    for instruction in &code.instructions {
        for word in instruction.written_words() {
            values[word] += 1;
        }
    }
    values
}

/// Asks that each instruction reads arguments and what was written before alone.
fn reads_behind_writes(code: &Code) -> bool {
    let mut written = vec![false; 8300];
    written[..code.argument_words as usize].fill(true);
    code.instructions.iter().all(|instruction| {
        let known = instruction.read_words().iter().all(|&word| written[word]);
        for word in instruction.written_words() {
            written[word] = true;
        }
        known
    })
}

/// Asks the rules of a list: an order of all instructions, each behind what it reads, and words of its own below
/// 8,192 for each value, with every word that is read or put out moved as it was written.
fn ask_rules(one: &Code, order: &[usize], two: &Code) {
    let count = one.instructions.len();
    let mut sorted = order.to_vec();
    sorted.sort();
    assert!(sorted.into_iter().eq(0..count), "all, and each once");
    assert_eq!(two.version, 2);
    assert_eq!(two.argument_words, one.argument_words);
    assert_eq!(two.instructions.len(), count);

    // Where each word of version 1 now stands.
    let mut moved: Vec<usize> = (0..one.words.into()).collect();
    for (new, &number) in two.instructions.iter().zip(order) {
        let old = one.instructions[number].written_words();
        let new = new.written_words();
        assert_eq!(old.len(), new.len());
        for (old, new) in old.zip(new) {
            moved[old] = new;
        }
    }
    for (own, &number) in two.instructions.iter().zip(order) {
        let other = &one.instructions[number];
        assert_eq!((own.kind, own.ty), (other.kind, other.ty));
        assert_eq!(own.constant, other.constant);
        let read: Vec<usize> = other.read_words().iter().map(|&w| moved[w]).collect();
        assert_eq!(own.read_words(), read);
    }
    let outputs: Vec<usize> = one.outputs.iter().map(|&w| moved[w as usize]).collect();
    assert!(two.outputs.iter().map(|&w| w as usize).eq(outputs));

    let values = values_at(two);
    assert!(values.iter().all(|&count| count <= 1), "a word is shared");
    let highest = values.iter().rposition(|&count| count == 1);
    assert_eq!(two.words as usize, highest.map_or(0, |word| word + 1));
    assert!(two.words <= 8192);
    assert!(reads_behind_writes(two));
}

/// Asks what each kind of order and placement is for.
fn ask_kinds(one: &Code, two: &Code, numbers: &[usize], order: Order, placement: Placement) {
    let count = numbers.len();
    match order {
        Order::Own => assert!(numbers.iter().copied().eq(0..count)),
        // Where a later number stands behind an earlier one, it reads the one before it.
        Order::Last => {
            for (at, pair) in numbers.windows(2).enumerate() {
                let before = two.instructions[at].written_words();
                let reads = two.instructions[at + 1].read_words();
                assert!(pair[0] > pair[1] || reads.iter().any(|word| before.contains(word)));
            }
        }
        Order::Any | Order::DepthFirst => {}
    }
    let values = values_at(two);
    let arguments = one.argument_words as usize;
    match placement {
        Placement::Own => {
            for (at, &number) in numbers.iter().enumerate() {
                let own = two.instructions[at].result;
                assert_eq!(own, one.instructions[number].result);
            }
        }
        Placement::Packed => assert_eq!(two.words, one.words),
        Placement::Spread => {}
        Placement::Highest => assert!(count == 0 || values[8191] == 1),
        Placement::FromTop => {
            let first = 8192 - (one.words as usize - arguments);
            assert!(values[first..8192].iter().all(|&count| count == 1));
        }
    }
}

/// The output words of a run in marked buffers, whose words that no value has stay as they were.
fn outputs(code: &[u8], arguments: &[u64]) -> Vec<u64> {
    let mark = 0xABCD;
    let (mut work, mut out) = (vec![mark; 8200], vec![0; 128]);
    let count = run(code, arguments, &mut work, &mut out).expect("taken");
    let values = values_at(&Code::from_bytes(code));
    let untouched = work.iter().zip(&values).filter(|&(_, &count)| count == 0);
    assert!(untouched.into_iter().all(|(&word, _)| word == mark));
    out.truncate(count);
    out
}

/// Every kind of order and placement of a function's list, and every rule broken.
fn ask(random: &mut Random, one: &[u8]) {
    let list = List::new(one);
    let version_1 = Code::from_bytes(one);
    let arguments: Vec<u64> = (0..one[5]).map(|_| random.finite()).collect();
    let wanted = outputs(one, &arguments);
    for order in Order::ALL {
        for placement in Placement::ALL {
            let numbers = list.order(random, order);
            let addresses = list.placement(random, placement);
            let code = list.write(&numbers, &addresses);
            ask_rules(&version_1, &numbers, &code);
            ask_kinds(&version_1, &code, &numbers, order, placement);
            let bytes = code.to_bytes();
            assert!(check_code(&bytes).is_ok());
            assert_eq!(outputs(&bytes, &arguments), wanted);
        }
    }
    for broken in Broken::ALL {
        if let Some(code) = list.broken(random, broken) {
            ask_broken(&version_1, &code, broken);
        }
    }
}

/// Asks that a list breaks its one rule, and no other.
fn ask_broken(one: &Code, code: &Code, broken: Broken) {
    let values = values_at(code);
    let shared = values.iter().filter(|&&count| count > 1).count();
    let above = values[8192..].iter().any(|&count| count > 0);
    let (count, own) = (code.instructions.len(), one.instructions.len());
    let taken = check_code(&code.to_bytes()).is_ok();
    match broken {
        Broken::ReadEarly => assert!(!reads_behind_writes(code) && !taken),
        Broken::SharedWord => assert!(reads_behind_writes(code) && taken),
        Broken::WordAbove => assert!(reads_behind_writes(code) && !taken),
        Broken::LeftOut => assert_eq!(count, own - 1),
        Broken::Doubled => assert_eq!(count, own + 1),
    }
    assert_eq!(above, broken == Broken::WordAbove);
    match broken {
        Broken::SharedWord => assert_eq!(shared, 1),
        Broken::Doubled => assert!(values.iter().all(|&count| count <= 2)),
        _ => assert_eq!(shared, 0),
    }
    if !matches!(broken, Broken::LeftOut | Broken::Doubled) {
        assert_eq!(count, own);
    }
}

#[test]
fn rules_of_known_shapes() {
    let mut random = Random::new(2);
    ask(&mut random, &small());
    let mut graphs = shapes::all_shapes();
    graphs.extend([shapes::case_k(), shapes::case_n(0), shapes::case_o(0)]);
    graphs.extend(reuse::small());
    let mut asked = 0;
    for graph in &graphs {
        let last = graph.functions.last().expect("a function").id;
        if let Ok(one) = compile(&graph.to_bytes(), last, usize::MAX) {
            ask(&mut random, &one);
            asked += 1;
        }
    }
    assert!(asked > 25);
}

#[test]
fn rules_of_random_tables() {
    let mut random = Random::new(3);
    for _ in 0..300 {
        let graph = random_graph(&mut random);
        let id = random.pick(&graph.functions).id;
        if let Ok(one) = compile(&graph.to_bytes(), id, usize::MAX) {
            ask(&mut random, &one);
        }
    }
}

#[test]
fn rules_near_the_limits() {
    let mut random = Random::new(4);
    let mut words = vec![];
    for _ in 0..40 {
        let graph = random_full(&mut random);
        let table = graph.to_bytes();
        let id = graph.functions.last().expect("a function").id;
        words.push(independent::words(&table, id).expect("accepted"));
        let one = compile(&table, id, usize::MAX).expect("within the limits");
        ask(&mut random, &one);
    }
    assert!(words.contains(&8191) && words.contains(&8192));
}
