//! Lists that a router proposes: placements by hand, the rules of a router's own list asked word by word, and what
//! each spoiled one is refused with.

use std::collections::BTreeMap;

use generate::codes::Code;
use generate::full::random_full;
use generate::graph::{Function, Graph, input};
use generate::kinds::*;
use generate::proposals::{Gap, Proposal, Route, Spoiled};
use generate::random::Random;
use generate::reorder::{List, Order, Placement};
use generate::tables::random_graph;
use generate::{reuse, shapes};
use independent::{Refusal, check_code, compile, compile_version, judge_placement, run};

const S: u8 = 1;
const V: u8 = 2;

/// A function within version 1's limits.
struct Routed {
    table: Vec<u8>,
    id: u16,
    version_1: Vec<u8>,
    one: Code,
    list: List,
}

impl Routed {
    fn new(graph: &Graph, id: u16) -> Option<Routed> {
        let table = graph.to_bytes();
        let version_1 = compile(&table, id, usize::MAX).ok()?;
        Some(Routed {
            one: Code::from_bytes(&version_1),
            list: List::new(&version_1),
            version_1,
            table,
            id,
        })
    }

    /// The last function of a graph.
    fn last(graph: &Graph) -> Option<Routed> {
        Routed::new(graph, graph.functions.last()?.id)
    }

    fn judge(&self, proposal: &Proposal) -> Result<usize, Refusal> {
        judge_placement(
            &self.table,
            self.id,
            &proposal.code.to_bytes(),
            &proposal.numbers,
        )
    }

    fn own(&self) -> Proposal {
        let code = compile_version(&self.table, self.id, 2, usize::MAX);
        Proposal::in_order(&code.expect("no more words than version 1"))
    }
}

/// The parts of a vector, the sum of its third and a scalar, a constant that nothing reads and the vector's double.
fn small() -> Routed {
    let mut f = Function::new(1, &[V, S]);
    let parts = f.node(DECOMPOSEVECTOR, 0, &[input(0)]);
    let a = f.node(ADDITION, S, &[parts.port(2), input(1)]);
    f.constant(&[0.0]);
    let b = f.node(ADDITION, V, &[input(0), input(0)]);
    f.output(S, a);
    f.output(V, b);
    f.output(S, parts.port(1));
    Routed::last(&Graph { functions: vec![f] }).expect("within the limits")
}

#[test]
fn placed_by_hand() {
    let mut random = Random::new(1);
    let small = small();
    let mut addresses = |order: &[usize], gap| {
        let route = small.list.route(&mut random, order.to_vec(), gap);
        let proposal = small.list.propose(&route);
        assert_eq!(small.judge(&proposal), Ok(4));
        route.addresses
    };
    // The sum takes the scalar's word, which it reads itself, the constant that of the first part, which nothing reads,
    // and the double that of the vector.
    assert_eq!(addresses(&[0, 1, 2, 3], Gap::Lowest), [4, 3, 4, 0]);
    // From above: the sum takes the word of the third part, the constant that of the first, and the double that of the
    // constant, which nothing reads, and two words below.
    assert_eq!(
        addresses(&[0, 1, 2, 3], Gap::Highest),
        [8189, 8191, 8189, 8187]
    );
    // The double first: the parts take the vector's words, the constant and the sum in turn that of the first part.
    assert_eq!(addresses(&[3, 0, 2, 1], Gap::Lowest), [0, 0, 0, 4]);
}

/// What each word holds before the first instruction, as a word of version 1's list.
fn arguments_held(one: &Code) -> Vec<Option<usize>> {
    let arguments = one.argument_words.into();
    (0..8192)
        .map(|word| (word < arguments).then_some(word))
        .collect()
}

/// Follows a proposal with what each word holds, as a word of version 1's list: the place of the first instruction
/// that reads anything but its own, or the instruction count for an output.
fn follow(one: &Code, proposal: &Proposal) -> Result<(), usize> {
    let mut holds = arguments_held(one);
    let instructions = proposal.code.instructions.iter().zip(&proposal.numbers);
    for (place, (own, &number)) in instructions.enumerate() {
        let other = &one.instructions[number as usize];
        let read = own.read_words().into_iter().map(|word| holds[word]);
        if !read.eq(other.read_words().into_iter().map(Some)) {
            return Err(place);
        }
        for (word, wanted) in own.written_words().zip(other.written_words()) {
            holds[word] = Some(wanted);
        }
    }
    let outputs = proposal.code.outputs.iter().map(|&w| holds[w as usize]);
    match outputs.eq(one.outputs.iter().map(|&w| Some(w as usize))) {
        true => Ok(()),
        false => Err(one.instructions.len()),
    }
}

/// What routers made use of, by name.
type Uses = BTreeMap<&'static str, usize>;

/// Asks that no result is written on a word that holds what a later instruction or an output reads, and of each kind
/// of gap what it says.
fn ask_gaps(one: &Code, route: &Route, gap: Gap, uses: &mut Uses) {
    let count = one.instructions.len();
    // For each word of version 1, the places that read it; an output reads behind all.
    let mut readers: Vec<Vec<usize>> = vec![vec![]; one.words.into()];
    for (place, &number) in route.order.iter().enumerate() {
        for word in one.instructions[number].read_words() {
            readers[word].push(place);
        }
    }
    for &word in &one.outputs {
        readers[word as usize].push(count);
    }
    // For each result word of version 1, the words of the whole result.
    let mut values = vec![0..0; one.words.into()];
    for instruction in &one.instructions {
        values[instruction.written_words()].fill(instruction.written_words());
    }
    let needed = |held: Option<usize>, place: usize| {
        held.is_some_and(|word| readers[word].iter().any(|&reader| reader > place))
    };
    let mut holds = arguments_held(one);
    let mut end: usize = one.argument_words.into();
    for (place, &number) in route.order.iter().enumerate() {
        let written = one.instructions[number].written_words();
        let free = |address: usize| {
            let words = &holds[address..address + written.len()];
            words.iter().all(|&held| !needed(held, place))
        };
        let address = route.addresses[number];
        assert!(free(address), "a word that is still needed");
        if count <= 100 {
            match gap {
                Gap::Lowest => assert!(!(0..address).any(free)),
                Gap::Highest => assert!(!(address + 1..=8192 - written.len()).any(free)),
                Gap::Near => assert!(address <= end),
                Gap::Spread => {}
            }
        }
        let read = one.instructions[number].read_words();
        for (k, word) in written.clone().enumerate() {
            let held = holds[address + k].replace(word);
            let Some(held) = held else {
                continue;
            };
            *uses.entry("a word used again").or_default() += 1;
            if held < one.argument_words.into() {
                *uses.entry("an argument's word").or_default() += 1;
            }
            if read.contains(&held) {
                *uses.entry("an own operand's word").or_default() += 1;
            }
            if values[held].clone().any(|word| needed(Some(word), place)) {
                *uses
                    .entry("a word of a value that is still needed")
                    .or_default() += 1;
            }
        }
        end = end.max(address + written.len());
    }
}

/// The output words of a list.
fn outputs(code: &[u8], arguments: &[u64]) -> Vec<u64> {
    let (mut work, mut out) = (vec![0; 8192], vec![0; 128]);
    let count = run(code, arguments, &mut work, &mut out).expect("taken");
    out.truncate(count);
    out
}

/// Asks that a proposal is right in all that 02 says, that it is accepted, and that it gives version 1's outputs.
fn ask_right(random: &mut Random, routed: &Routed, proposal: &Proposal) {
    let count = routed.one.instructions.len();
    let mut sorted = proposal.numbers.clone();
    sorted.sort();
    assert!(sorted.into_iter().eq(0..count as u16), "all, and each once");
    assert_eq!(follow(&routed.one, proposal), Ok(()));
    assert_eq!(routed.judge(proposal), Ok(count));
    let arguments: Vec<u64> = (0..routed.one.argument_words)
        .map(|_| random.finite())
        .collect();
    assert_eq!(
        outputs(&proposal.code.to_bytes(), &arguments),
        outputs(&routed.version_1, &arguments)
    );
}

/// The refusals that a spoiled proposal may get; 0 for none.
fn possible(spoiled: Spoiled) -> &'static [u32] {
    match spoiled {
        Spoiled::NumberDoubled
        | Spoiled::NumberBeyond
        | Spoiled::OperandElsewhere
        | Spoiled::OperandsExchanged
        | Spoiled::ConstantBit
        | Spoiled::OutputsExchanged
        | Spoiled::OtherKind => &[29],
        Spoiled::NumberMissing | Spoiled::NumberAdded | Spoiled::InstructionAdded => &[33],
        Spoiled::OperandMoved | Spoiled::OutputMoved | Spoiled::OtherType => &[18, 29],
        Spoiled::ArgumentWords | Spoiled::OutputWords | Spoiled::InstructionMissing => &[18, 33],
        // Two instructions may be alike, or neither may need the other.
        Spoiled::NumbersExchanged => &[0, 29],
        // A result that nothing reads may stand anywhere.
        Spoiled::ResultMoved => &[0, 18, 29],
        Spoiled::InstructionsExchanged | Spoiled::OrderBroken => &[0, 18, 29],
    }
}

/// How often each spoiled proposal got each answer.
type Answers = BTreeMap<(usize, u32), usize>;

/// Spoils a right proposal in every way, and asks for the answers that may be.
fn ask_spoiled(random: &mut Random, routed: &Routed, right: &Proposal, answers: &mut Answers) {
    let count = routed.one.instructions.len();
    for spoiled in Spoiled::ALL {
        let Some(proposal) = right.spoiled(random, spoiled) else {
            continue;
        };
        let answer = routed.judge(&proposal);
        let number = answer.as_ref().err().map_or(0, |refusal| refusal.number);
        assert!(
            possible(spoiled).contains(&number),
            "{spoiled:?}: {answer:?}"
        );
        let differs = |place: &usize| proposal.numbers[*place] != right.numbers[*place];
        match (spoiled, answer) {
            // Of a doubled number the later; a number that no instruction has, where it stands.
            (Spoiled::NumberDoubled, Err(refusal)) => {
                let at = (0..count).find(differs).expect("a difference");
                let twice = |&place: &usize| proposal.numbers[place] == proposal.numbers[at];
                let later = (0..count).rfind(twice).expect("at least one");
                // A number that was put first may be at fault itself, or what reads its result; the later is.
                assert!((at..=later).contains(&refusal.place));
            }
            (Spoiled::NumberBeyond, Err(refusal)) => {
                assert_eq!((0..count).find(differs), Some(refusal.place));
            }
            (Spoiled::OutputMoved | Spoiled::OutputsExchanged, Err(refusal)) => {
                assert!(refusal.number == 18 || refusal.place == count);
            }
            _ => {}
        }
        *answers.entry((spoiled as usize, number)).or_default() += 1;
    }
}

#[derive(Default)]
struct Seen {
    uses: Uses,
    answers: Answers,
    /// Slips whose fault is an instruction, and an output.
    slips: [usize; 2],
    /// Routers' lists that are neither version 2's own nor have words of their own for each value.
    new: usize,
}

/// Every order with every kind of gap, a slip in each, and every way to spoil one of them.
fn ask(random: &mut Random, routed: &Routed, seen: &mut Seen) {
    let count = routed.one.instructions.len();
    let own = routed.own();
    ask_right(random, routed, &own);
    for order in Order::ALL {
        let order = routed.list.order(random, order);
        let placement = *random.pick(&Placement::ALL);
        let apart = Route {
            addresses: routed.list.placement(random, placement),
            order: order.clone(),
        };
        ask_right(random, routed, &routed.list.propose(&apart));
        let to_spoil = *random.pick(&Gap::ALL);
        for gap in Gap::ALL {
            let before: usize = seen.uses.values().sum();
            let route = routed.list.route(random, order.clone(), gap);
            ask_gaps(&routed.one, &route, gap, &mut seen.uses);
            let proposal = routed.list.propose(&route);
            ask_right(random, routed, &proposal);
            let shared = seen.uses.values().sum::<usize>() > before;
            let ours = proposal.code.to_bytes() == own.code.to_bytes();
            seen.new += usize::from(shared && !ours);
            if gap == to_spoil {
                ask_spoiled(random, routed, &proposal, &mut seen.answers);
            }
            if let Some(slipped) = routed.list.slip(random, &route) {
                let slipped = routed.list.propose(&slipped);
                assert!(
                    check_code(&slipped.code.to_bytes()).is_ok(),
                    "18 is no slip"
                );
                let place = follow(&routed.one, &slipped).expect_err("a fault");
                let number = 29;
                assert_eq!(routed.judge(&slipped), Err(Refusal { number, place }));
                seen.slips[usize::from(place == count)] += 1;
            }
        }
    }
}

#[test]
fn our_own_list_is_a_route() {
    for graph in reuse::small() {
        let routed = Routed::last(&graph).expect("within the limits");
        let own = routed.own();
        let addresses = own.code.instructions.iter().map(|i| i.result.into());
        let route = Route {
            order: (0..own.numbers.len()).collect(),
            addresses: addresses.collect(),
        };
        let proposal = routed.list.propose(&route);
        assert_eq!(proposal.code.to_bytes(), own.code.to_bytes());
        assert_eq!(proposal.numbers, own.numbers);
    }
}

#[test]
fn known_shapes() {
    let mut random = Random::new(2);
    let mut seen = Seen::default();
    ask(&mut random, &small(), &mut seen);
    let mut graphs = shapes::all_shapes();
    graphs.extend([shapes::case_k(), shapes::case_n(0), shapes::case_o(0)]);
    graphs.extend(reuse::small());
    let mut asked = 0;
    for routed in graphs.iter().filter_map(Routed::last) {
        ask(&mut random, &routed, &mut seen);
        asked += 1;
    }
    assert!(asked > 25);
}

#[test]
fn random_tables() {
    let mut random = Random::new(3);
    let mut seen = Seen::default();
    for _ in 0..200 {
        let graph = random_graph(&mut random);
        let id = random.pick(&graph.functions).id;
        if let Some(routed) = Routed::new(&graph, id) {
            ask(&mut random, &routed, &mut seen);
        }
    }
    assert_eq!(seen.uses.len(), 4, "{:?}", seen.uses);
    assert!(seen.new > 1000 && seen.slips[0] > 1000 && seen.slips[1] > 100);
    for spoiled in Spoiled::ALL {
        for &number in possible(spoiled) {
            let met = seen.answers.get(&(spoiled as usize, number));
            // Two instructions that are alike in all are rare.
            assert!(
                number == 0 || met.is_some(),
                "{spoiled:?} never met {number}"
            );
        }
    }
}

#[test]
fn near_the_limits() {
    let mut random = Random::new(4);
    let mut seen = Seen::default();
    for _ in 0..4 {
        let graph = random_full(&mut random);
        let routed = Routed::last(&graph).expect("within the limits");
        ask(&mut random, &routed, &mut seen);
    }
    assert!(seen.slips[0] > 10);
}
