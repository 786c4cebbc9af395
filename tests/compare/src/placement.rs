//! A router's own placement: our own lists, lists in other orders and words, lists that use words again, which are all
//! accepted and give version 1's output words; and spoiled ones.

use generate::codes;
use generate::graph::Graph;
use generate::proposals::{Gap, Proposal, Route, Spoiled, alike_constants};
use generate::random::Random;
use generate::reorder::{Order, Placement};
use generate::{full, heat_exchanger, reuse, shapes};
use independent::Refusal;

use crate::check::as_independent;
use crate::marked::Marked;
use crate::reorder::Reordered;
use crate::report::{Part, Report, hex};
use crate::reuse::{every_address, every_byte};
use crate::versions::both;

/// The proposals of a sort that were accepted and refused, as counted.
type Sort = [&'static str; 2];

const OWN: Sort = [
    "proposals, our own version 2 list: accepted",
    "proposals, our own version 2 list: refused",
];
const APART: Sort = [
    "proposals, other orders, each value in words of its own: accepted",
    "proposals, other orders, each value in words of its own: refused",
];
const ROUTED: Sort = [
    "proposals, other orders, words used again: accepted",
    "proposals, other orders, words used again: refused",
];
const SPOILED: Sort = [
    "proposals, spoiled: accepted",
    "proposals, spoiled: refused",
];

const SLIP: &str = "spoiled: a value overwritten before an instruction reads it";
const SLIP_OF_OUTPUT: &str = "spoiled: a value overwritten before it is put out";
const VERSION_1: &str = "spoiled: a version 1 list";
const OTHER_FUNCTION: &str = "spoiled: another function's list";
const DAMAGED: &str = "spoiled: a damaged list";
const TWICE: &str = "spoiled: in two ways";

const fn name(spoiled: Spoiled) -> &'static str {
    match spoiled {
        Spoiled::NumbersExchanged => "spoiled: two numbers exchanged",
        Spoiled::NumberDoubled => "spoiled: a number doubled",
        Spoiled::NumberBeyond => "spoiled: a number that no instruction has",
        Spoiled::NumberMissing => "spoiled: a number too few",
        Spoiled::NumberAdded => "spoiled: a number too many",
        Spoiled::OperandMoved => "spoiled: an operand a word beside",
        Spoiled::OperandElsewhere => "spoiled: an operand elsewhere",
        Spoiled::OperandsExchanged => "spoiled: two operands exchanged",
        Spoiled::ResultMoved => "spoiled: a result a word beside",
        Spoiled::ConstantBit => "spoiled: a constant's bit",
        Spoiled::OutputMoved => "spoiled: an output a word beside",
        Spoiled::OutputsExchanged => "spoiled: two outputs exchanged",
        Spoiled::InstructionsExchanged => "spoiled: two instructions exchanged, not their numbers",
        Spoiled::OrderBroken => "spoiled: two instructions exchanged with their numbers",
        Spoiled::OtherKind => "spoiled: another kind of the same shape",
        Spoiled::OtherType => "spoiled: another type",
        Spoiled::ArgumentWords => "spoiled: an argument word more or less",
        Spoiled::OutputWords => "spoiled: an output word more or less",
        Spoiled::InstructionMissing => "spoiled: an instruction left out",
        Spoiled::InstructionAdded => "spoiled: an instruction doubled",
    }
}

/// What a whole run must have met, and how often at least.
pub fn counted() -> Vec<(&'static str, u64)> {
    let mut counts = vec![];
    for [accepted, refused] in [OWN, APART, ROUTED] {
        counts.extend([(accepted, 1), (refused, 0)]);
    }
    counts.extend([(SPOILED[0], 1), (SPOILED[1], 1)]);
    counts.extend([(SLIP, 1000), (SLIP_OF_OUTPUT, 1)]);
    counts.extend(Spoiled::ALL.map(|spoiled| (name(spoiled), 1)));
    counts.extend([VERSION_1, OTHER_FUNCTION, DAMAGED, TWICE].map(|name| (name, 1)));
    counts
}

/// Holds the answer, with guards around all that is lent, which stays as it was.
fn judge(
    report: &mut Report,
    table: &[u8],
    id: u16,
    code: &[u8],
    numbers: &[u16],
) -> Result<usize, Refusal> {
    let wanted = independent::judge_placement(table, id, code, numbers);
    let [lent_table, lent_code] = [table, code].map(|bytes| Marked::bytes(0).around(bytes));
    let lent_numbers = Marked::numbers(0).around(numbers);
    let (mut got_table, mut got_code) = (lent_table.clone(), lent_code.clone());
    let mut got_numbers = lent_numbers.clone();
    let got = as_independent(quetlapin::judge_placement(
        got_table.lent(),
        id,
        got_code.lent(),
        got_numbers.lent(),
    ));
    let inputs = || inputs(table, id, code, numbers);
    report.same_buffer("placement: the table", &lent_table, &got_table, inputs);
    report.same_buffer("placement: the code", &lent_code, &got_code, inputs);
    report.same_buffer(
        "placement: the numbers",
        &lent_numbers,
        &got_numbers,
        inputs,
    );
    report.hold(Part::JudgePlacement, wanted, got, inputs);
    got
}

/// What a call is given, for people.
fn inputs(table: &[u8], id: u16, code: &[u8], numbers: &[u16]) -> String {
    format!(
        "  function {id}, numbers {numbers:?}\n  code {}\n  table {}",
        hex(code),
        hex(table)
    )
}

/// A function that has a version 1 list.
struct Proposed<'a> {
    table: &'a [u8],
    id: u16,
    function: Reordered<'a>,
}

impl<'a> Proposed<'a> {
    fn new(table: &'a [u8], id: u16, version_1: &'a [u8]) -> Proposed<'a> {
        Proposed {
            table,
            id,
            function: Reordered::new(table, id, version_1),
        }
    }

    /// Our own list of version 2, and the route that it takes.
    fn own(&self) -> (Proposal, Route) {
        let code = independent::compile_version(self.table, self.id, 2, usize::MAX);
        let own = Proposal::in_order(&code.expect("no more words than version 1"));
        let results = own.code.instructions.iter().map(|i| i.result.into());
        let route = Route {
            order: (0..own.numbers.len()).collect(),
            addresses: results.collect(),
        };
        (own, route)
    }

    /// Words of its own for each value.
    fn apart(&self, random: &mut Random, order: Order, placement: Placement) -> Route {
        Route {
            order: self.function.list.order(random, order),
            addresses: self.function.list.placement(random, placement),
        }
    }

    /// Words that are used again.
    fn routed(&self, random: &mut Random, order: Order, gap: Gap) -> Route {
        let order = self.function.list.order(random, order);
        self.function.list.route(random, order, gap)
    }

    /// Holds the verdict on a list; one that is accepted gives version 1's outputs.
    fn judge(
        &self,
        report: &mut Report,
        random: &mut Random,
        sort: Sort,
        code: &[u8],
        numbers: &[u16],
    ) -> Result<usize, Refusal> {
        let got = judge(report, self.table, self.id, code, numbers);
        report.add(sort[usize::from(got.is_err())]);
        if got.is_ok() {
            let Reordered {
                version_1, meaning, ..
            } = &self.function;
            let arguments = self.function.some_arguments(random);
            both(report, meaning, [version_1, code], &arguments);
        }
        got
    }

    /// Asks that a proposal is accepted.
    fn right(&self, report: &mut Report, random: &mut Random, sort: Sort, proposal: &Proposal) {
        let Proposal { code, numbers } = proposal;
        let code = code.to_bytes();
        let got = self.judge(report, random, sort, &code, numbers);
        let inputs = || inputs(self.table, self.id, &code, numbers);
        report.same(sort[0], &Ok(numbers.len()), &got, inputs);
    }

    /// A list that is mostly spoiled and may still be right.
    fn tried(&self, report: &mut Report, random: &mut Random, code: &[u8], numbers: &[u16]) {
        let _ = self.judge(report, random, SPOILED, code, numbers);
    }

    /// A spoiled proposal, under its name.
    fn wrong(
        &self,
        report: &mut Report,
        random: &mut Random,
        name: &'static str,
        code: &[u8],
        numbers: &[u16],
    ) {
        report.add(name);
        self.tried(report, random, code, numbers);
    }

    fn spoiled(
        &self,
        report: &mut Report,
        random: &mut Random,
        right: &Proposal,
        spoiled: Spoiled,
    ) {
        if let Some(Proposal { code, numbers }) = right.spoiled(random, spoiled) {
            self.wrong(report, random, name(spoiled), &code.to_bytes(), &numbers);
        }
    }

    /// A route with a value overwritten too early, which is 29 and never 18.
    fn slip(&self, report: &mut Report, random: &mut Random, route: &Route) {
        let Some(slipped) = self.function.list.slip(random, route) else {
            return;
        };
        let Proposal { code, numbers } = self.function.list.propose(&slipped);
        let code = code.to_bytes();
        let got = self.judge(report, random, SPOILED, &code, &numbers);
        let (number, place) = got.map_or_else(|r| (r.number, r.place), |count| (0, count));
        let inputs = || inputs(self.table, self.id, &code, &numbers);
        report.same("a slip, which is 29", &29, &number, inputs);
        if number == 29 {
            let by_instruction = place < numbers.len();
            report.add(if by_instruction { SLIP } else { SLIP_OF_OUTPUT });
        }
    }

    /// A list with damaged bytes or fields.
    fn damaged(&self, report: &mut Report, random: &mut Random, right: &Proposal) {
        let code = codes::damaged_code(random, &right.code);
        self.wrong(report, random, DAMAGED, &code, &right.numbers);
    }

    fn version_1(&self, report: &mut Report, random: &mut Random) {
        let code = self.function.version_1;
        let numbers = Proposal::in_order(code).numbers;
        self.wrong(report, random, VERSION_1, code, &numbers);
    }
}

// ---- at random

/// Lists for a function of a random table, right and spoiled, and one of them for a damaged table.
pub fn random(report: &mut Report, random: &mut Random, graph: &Graph, id: u16, damaged: &[u8]) {
    let table = &graph.to_bytes();
    let Ok(version_1) = independent::compile(table, id, usize::MAX) else {
        return beyond(report, random, table, id);
    };
    let function = Proposed::new(table, id, &version_1);
    let (own, route) = function.own();
    function.right(report, random, OWN, &own);
    let mut routes = vec![(OWN, route)];
    let (order, placement) = (*random.pick(&Order::ALL), *random.pick(&Placement::ALL));
    routes.push((APART, function.apart(random, order, placement)));
    for _ in 0..2 {
        let (order, gap) = (*random.pick(&Order::ALL), *random.pick(&Gap::ALL));
        routes.push((ROUTED, function.routed(random, order, gap)));
    }
    let list = &function.function.list;
    for (sort, route) in &routes[1..] {
        function.right(report, random, *sort, &list.propose(route));
    }

    let (_, route) = random.pick(&routes);
    function.slip(report, random, route);
    let right = list.propose(&random.pick(&routes).1);
    for _ in 0..3 {
        let spoiled = *random.pick(&Spoiled::ALL);
        function.spoiled(report, random, &right, spoiled);
    }
    function.damaged(report, random, &right);
    let faults = [*random.pick(&Spoiled::ALL), *random.pick(&Spoiled::ALL)];
    if let Some(first) = right.spoiled(random, faults[0])
        && let Some(Proposal { code, numbers }) = first.spoiled(random, faults[1])
    {
        function.wrong(report, random, TWICE, &code.to_bytes(), &numbers);
    }
    if random.chance(5) {
        function.version_1(report, random);
    }
    let other = random.pick(&graph.functions).id;
    if other != id
        && let Ok(code) = independent::compile_version(table, other, 2, usize::MAX)
    {
        let Proposal { numbers, .. } = Proposal::in_order(&code);
        function.wrong(report, random, OTHER_FUNCTION, &code, &numbers);
    }
    let _ = judge(report, damaged, id, &right.code.to_bytes(), &right.numbers);
}

/// A function that the table lacks, or that is over version 1's limits: its list of version 2, if it has one, and none.
fn beyond(report: &mut Report, random: &mut Random, table: &[u8], id: u16) {
    let code = match independent::compile_version(table, id, 2, usize::MAX) {
        Ok(code) => code,
        Err(_) => codes::random_code_2(random).to_bytes(),
    };
    let numbers = Proposal::in_order(&code).numbers;
    let _ = judge(report, table, id, &code, &numbers);
    let _ = judge(report, table, id, &[], &[]);
}

// ---- known cases

/// The last function of a graph, if version 1 has a list for it.
fn last(graph: &Graph) -> Option<(Vec<u8>, u16, Vec<u8>)> {
    let (table, id) = (graph.to_bytes(), graph.functions.last()?.id);
    let version_1 = independent::compile(&table, id, usize::MAX).ok()?;
    Some((table, id, version_1))
}

/// Random functions that fill version 1's words.
const FULL: usize = 6;

/// The settled examples, small functions with everything changed in turn, faults at once, and the limits.
pub fn fixed(report: &mut Report, random: &mut Random) {
    settled(report);
    let mut small = reuse::small();
    small.extend([shapes::case_a(), shapes::case_k(), alike_constants()]);
    for graph in &small {
        in_turn(report, random, graph);
    }
    for graph in [
        shapes::case_a(),
        shapes::case_k(),
        reuse::gaps(),
        reuse::decomposed(),
        heat_exchanger::graph(),
        shapes::case_n(1),
        shapes::case_o(1),
        reuse::matrix_chains(255, 3),
        reuse::held(7, 1, 13),
    ] {
        at_once(report, &graph);
    }
    let mut graphs = small;
    graphs.extend(shapes::all_shapes());
    graphs.extend([shapes::case_n(0), shapes::case_o(0)]);
    graphs.extend(reuse::graphs());
    graphs.extend((0..FULL).map(|_| full::random_full(random)));
    for graph in &graphs {
        shape(report, random, graph);
    }
}

/// A and K with lists written by hand.
fn settled(report: &mut Report) {
    let (a, k) = (shapes::case_a().to_bytes(), shapes::case_k().to_bytes());
    let a_1 = b"IFR\x01\x00\x02\x01\x00\x01\x00\x03\x00\x03\x01\x00\x00\x01\x00\x02\x00";
    let a_2 = b"IFR\x02\x00\x02\x01\x00\x01\x00\x03\x00\x03\x01\x02\x00\x00\x00\x01\x00\x02\x00";
    // The product on the second factor's word.
    let on_b = b"IFR\x02\x00\x02\x01\x00\x01\x00\x02\x00\x03\x01\x01\x00\x00\x00\x01\x00\x01\x00";
    // The factors exchanged, and the first factor put out.
    let b_a = b"IFR\x02\x00\x02\x01\x00\x01\x00\x03\x00\x03\x01\x02\x00\x01\x00\x00\x00\x02\x00";
    let out = b"IFR\x02\x00\x02\x01\x00\x01\x00\x03\x00\x03\x01\x02\x00\x00\x00\x01\x00\x00\x00";
    let k_2 = b"IFR\x02\x00\x01\x01\x00\x00\x00\x01\x00\x00\x00";
    let refused = |number, place| Err(Refusal { number, place });
    let cases: [(&[u8], &[u8], &[u16], _); 10] = [
        (&a, a_2, &[0], Ok(1)),
        (&a, on_b, &[0], Ok(1)),
        (&a, a_1, &[0], refused(18, 0)),
        (&a, k_2, &[0], refused(33, 0)),
        (&a, a_2, &[0, 0], refused(33, 0)),
        (&a, a_2, &[1], refused(29, 0)),
        (&a, b_a, &[0], refused(29, 0)),
        (&a, out, &[0], refused(29, 1)),
        (&k, k_2, &[], Ok(0)),
        (&k, a_2, &[0], refused(33, 0)),
    ];
    for (table, code, numbers, wanted) in cases {
        let got = judge(report, table, 1, code, numbers);
        let inputs = || inputs(table, 1, code, numbers);
        report.same("a placement by hand", &wanted, &got, inputs);
    }
}

/// A small function's own list with everything in turn: bytes, addresses, numbers, their count, the words of each result
/// with its readers, and the order of instructions and of numbers.
fn in_turn(report: &mut Report, random: &mut Random, graph: &Graph) {
    let (table, id, version_1) = last(graph).expect("within the limits");
    let function = Proposed::new(&table, id, &version_1);
    let (own, route) = function.own();
    let (code, count) = (own.code.to_bytes(), own.numbers.len());
    let mut hold = |code: &[u8], numbers: &[u16]| function.tried(report, random, code, numbers);
    if code.len() < 150 {
        every_byte(&code, |code, _| hold(code, &own.numbers));
    }
    every_address(&own.code, |code| hold(&code.to_bytes(), &own.numbers));
    for at in 0..count {
        for number in (0..=count as u16 + 2).chain([255, 256, 4095, 4096, 65_535]) {
            let mut numbers = own.numbers.clone();
            numbers[at] = number;
            hold(&code, &numbers);
        }
    }
    for length in (0..=count + 2).chain([count + 256, count + 65_535, count + 65_536]) {
        let mut numbers = own.numbers.clone();
        numbers.resize(length, 0);
        hold(&code, &numbers);
    }
    let mut routes = vec![];
    for at in 0..count {
        for address in (0..own.code.words as usize + 3).chain(8170..8192) {
            let mut route = route.clone();
            route.addresses[at] = address;
            routes.push(route);
        }
    }
    let list = &function.function.list;
    for order in orders(count.min(5)) {
        // What stands behind keeps its place.
        let order: Vec<usize> = order.into_iter().chain(count.min(5)..count).collect();
        let numbers: Vec<u16> = order.iter().map(|&at| at as u16).collect();
        hold(&code, &numbers);
        for addresses in [route.addresses.clone(), list.own_addresses()] {
            let order = order.clone();
            routes.push(Route { order, addresses });
        }
    }
    for route in &routes {
        let Proposal { code, numbers } = list.propose(route);
        hold(&code.to_bytes(), &numbers);
    }
}

/// Every order of so many.
fn orders(count: usize) -> Vec<Vec<usize>> {
    let mut orders = vec![vec![]];
    for last in 0..count {
        let longer = |order: &Vec<usize>, place: usize| {
            let mut order = order.clone();
            order.insert(place, last);
            order
        };
        orders = orders
            .iter()
            .flat_map(|order| (0..=last).map(move |place| longer(order, place)))
            .collect();
    }
    orders
}

/// What one call is given.
#[derive(Clone)]
struct Call {
    table: Vec<u8>,
    id: u16,
    proposal: Proposal,
}

/// Faults of a call, and none.
const FAULTS: [fn(&mut Call); 28] = [
    |_| (),
    |call| call.table.truncate(7),
    |call| call.table.truncate(call.table.len() - 1),
    |call| call.table[0] = 0,
    // The function count one less: bytes behind the last function.
    |call| call.table[5] = call.table[5].wrapping_sub(1),
    |call| call.id = 0,
    |call| call.id = 999,
    |call| call.proposal.code.mark[2] = 0,
    |call| call.proposal.code.version = 1,
    |call| call.proposal.code.version = 3,
    |call| call.proposal.code.words += 1,
    |call| call.proposal.code.instruction_count += 1,
    |call| {
        call.proposal.code.argument_words += 1;
        call.proposal.code.mend_words();
    },
    |call| {
        call.proposal.code.argument_words = 129;
        call.proposal.code.mend_words();
    },
    |call| call.proposal.code.output(0),
    |call| {
        call.proposal.code.outputs.pop();
        call.proposal.code.output_words = call.proposal.code.outputs.len() as u8;
    },
    |call| {
        let code = &mut call.proposal.code;
        code.push_at(0, generate::kinds::CONSTANT, 0, &[], &[0]);
    },
    |call| {
        call.proposal.code.instructions.pop();
        call.proposal.code.instruction_count = call.proposal.code.instructions.len() as u16;
        call.proposal.code.mend_words();
    },
    |call| call.proposal.numbers.clear(),
    |call| {
        call.proposal.numbers.pop();
    },
    |call| call.proposal.numbers.push(0),
    |call| {
        call.proposal
            .numbers
            .resize(call.proposal.numbers.len() + 65_536, 0)
    },
    |call| set(call.proposal.numbers.first_mut(), u16::MAX),
    |call| set(call.proposal.numbers.last_mut(), 0),
    |call| call.proposal.numbers.reverse(),
    |call| {
        for instruction in &mut call.proposal.code.instructions {
            instruction.operands.reverse();
        }
    },
    |call| call.proposal.code.outputs.reverse(),
    |call| set(call.proposal.code.outputs.last_mut(), 0),
];

fn set(field: Option<&mut u16>, value: u16) {
    if let Some(field) = field {
        *field = value;
    }
}

/// Every two faults at once, so that the order 1 to 16, 18, 33, 29 is met. A function that has no list of version 2 is
/// given A's.
fn at_once(report: &mut Report, graph: &Graph) {
    let (table, id) = (
        graph.to_bytes(),
        graph.functions.last().expect("a function").id,
    );
    let code = independent::compile_version(&table, id, 2, usize::MAX)
        .or_else(|_| independent::compile_version(&shapes::case_a().to_bytes(), 1, 2, 22))
        .expect("a list of A");
    let good = Call {
        table,
        id,
        proposal: Proposal::in_order(&code),
    };
    for first in FAULTS {
        for second in FAULTS {
            let mut call = good.clone();
            first(&mut call);
            second(&mut call);
            let Proposal { code, numbers } = &call.proposal;
            let _ = judge(report, &call.table, call.id, &code.to_bytes(), numbers);
        }
    }
}

/// Every order of the last function's instructions with every kind of gap, a slip in each, and every way to spoil one; lists
/// longer than the function's up to one instruction over the limit.
fn shape(report: &mut Report, random: &mut Random, graph: &Graph) {
    let Some((table, id, version_1)) = last(graph) else {
        let id = graph.functions.last().expect("a function").id;
        return beyond(report, random, &graph.to_bytes(), id);
    };
    let function = Proposed::new(&table, id, &version_1);
    let (own, route) = function.own();
    function.right(report, random, OWN, &own);
    function.slip(report, random, &route);
    function.version_1(report, random);
    let list = &function.function.list;
    for order in Order::ALL {
        let placement = *random.pick(&Placement::ALL);
        let route = function.apart(random, order, placement);
        function.right(report, random, APART, &list.propose(&route));
        for gap in Gap::ALL {
            let route = function.routed(random, order, gap);
            function.right(report, random, ROUTED, &list.propose(&route));
            function.slip(report, random, &route);
        }
    }
    let (order, gap) = (*random.pick(&Order::ALL), *random.pick(&Gap::ALL));
    let right = list.propose(&function.routed(random, order, gap));
    for spoiled in Spoiled::ALL {
        function.spoiled(report, random, &right, spoiled);
    }
    function.damaged(report, random, &right);
    for count in [4095, 4096, 4097] {
        let Proposal {
            mut code,
            mut numbers,
        } = own.clone();
        while code.instructions.len() < count {
            code.push_at(0, generate::kinds::CONSTANT, 0, &[], &[0]);
        }
        let code = code.to_bytes();
        let _ = judge(report, &table, id, &code, &numbers);
        numbers.resize(count, 0);
        let _ = judge(report, &table, id, &code, &numbers);
    }
}
