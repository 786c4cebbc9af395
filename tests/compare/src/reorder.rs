//! Version 1's instructions in other orders and other words, written as version 2 lists: taken, with version 1's
//! output words; and lists that break one of the rules.

use generate::full::random_full;
use generate::random::Random;
use generate::reorder::{Broken, List, Order, Placement};
use generate::{reuse, shapes};
use independent::{Meaning, Refusal};

use crate::points;
use crate::report::Report;
use crate::run::{Room, argument_words, compare, exact_room, finite_arguments, inputs};
use crate::versions::both;

const LISTS: &str = "other orders: lists";
const OTHER_ORDERS: &str = "other orders: lists not in version 1's order";
const OTHER_PLACEMENTS: &str = "other orders: lists not in version 1's words";
const OTHER_OUTPUTS: &str = "broken rule: a shared word, and other outputs than version 1's";

const fn name(broken: Broken) -> &'static str {
    match broken {
        Broken::ReadEarly => "broken rule: read before it is written",
        Broken::SharedWord => "broken rule: a shared word",
        Broken::WordAbove => "broken rule: a word above 8,191",
        Broken::LeftOut => "broken rule: an instruction left out",
        Broken::Doubled => "broken rule: an instruction doubled",
    }
}

/// What a whole run must have met.
pub const COUNTED: [&str; 9] = [
    LISTS,
    OTHER_ORDERS,
    OTHER_PLACEMENTS,
    name(Broken::ReadEarly),
    name(Broken::SharedWord),
    OTHER_OUTPUTS,
    name(Broken::WordAbove),
    name(Broken::LeftOut),
    name(Broken::Doubled),
];

/// A function that has a version 1 list.
pub struct Reordered<'a> {
    pub version_1: &'a [u8],
    pub list: List,
    pub meaning: Meaning<'a>,
}

impl<'a> Reordered<'a> {
    pub fn new(table: &'a [u8], id: u16, version_1: &'a [u8]) -> Reordered<'a> {
        Reordered {
            version_1,
            list: List::new(version_1),
            meaning: Meaning::of(table, id),
        }
    }

    pub fn some_arguments(&self, random: &mut Random) -> Vec<u64> {
        finite_arguments(random, argument_words(self.version_1))
    }

    /// A list in an order and a placement of these kinds.
    fn write(
        &self,
        report: &mut Report,
        random: &mut Random,
        order: Order,
        placement: Placement,
    ) -> Vec<u8> {
        let order = self.list.order(random, order);
        let addresses = self.list.placement(random, placement);
        report.add(LISTS);
        if !order.is_sorted() {
            report.add(OTHER_ORDERS);
        }
        if addresses != self.list.own_addresses() {
            report.add(OTHER_PLACEMENTS);
        }
        self.list.write(&order, &addresses).to_bytes()
    }

    /// Asks that a list is taken, in buffers that are long enough, with version 1's output words.
    fn taken(&self, report: &mut Report, random: &mut Random, code: &[u8]) {
        let arguments = self.some_arguments(random);
        let Room { work, out } = exact_room(code);
        let room = Room {
            work: work + random.below(2) * random.range(1, 20),
            out: out + random.below(2) * random.range(1, 20),
        };
        let ran = compare(report, code, &arguments, room, Some(&self.meaning));
        let inputs = || inputs(code, &arguments, room);
        report.same("other orders: taken", &Ok(out), &ran.answer, inputs);
        both(report, &self.meaning, [self.version_1, code], &arguments);
    }

    /// A list with a rule broken: 18 where that must be; if it is taken, version 1's output words, but for a shared word.
    fn broken(&self, report: &mut Report, random: &mut Random, broken: Broken) {
        let name = name(broken);
        let Some(code) = self.list.broken(random, broken) else {
            return;
        };
        report.add(name);
        let code = code.to_bytes();
        let arguments = self.some_arguments(random);
        let room = exact_room(&code);
        let inputs = || inputs(&code, &arguments, room);
        let ran = compare(report, &code, &arguments, room, None);
        if let Broken::ReadEarly | Broken::WordAbove = broken {
            report.same(name, &refused(18), &ran.answer, inputs);
        }
        if let Ok(count) = ran.answer {
            let wanted = self.meaning.on(&arguments);
            let outputs = ran.out.front(count);
            match broken {
                Broken::SharedWord if outputs != wanted => report.add(OTHER_OUTPUTS),
                Broken::SharedWord => {}
                _ => report.same(name, &wanted[..], outputs, inputs),
            }
        }
    }
}

fn refused(number: u32) -> Result<usize, Refusal> {
    Err(Refusal { number, place: 0 })
}

/// Arguments too few, too many and not finite, and buffers a word short, each alone.
fn refusals(report: &mut Report, random: &mut Random, code: &[u8]) {
    let arguments = finite_arguments(random, argument_words(code));
    let room = exact_room(code);
    let (mut short_work, mut short_out) = (room, room);
    short_work.work -= 1;
    short_out.out -= 1;
    let mut calls = vec![
        (21, arguments.clone(), short_work),
        (21, arguments.clone(), short_out),
        (19, [&arguments[..], &[0]].concat(), room),
    ];
    if let Some((_, fewer)) = arguments.split_last() {
        calls.push((19, fewer.to_vec(), room));
        let mut not_finite = arguments.clone();
        not_finite[random.below(arguments.len())] = random.not_finite();
        calls.push((20, not_finite, room));
    }
    for (number, arguments, room) in calls {
        let ran = compare(report, code, &arguments, room, None);
        let what = "other orders: the refusal";
        let inputs = || inputs(code, &arguments, room);
        report.same(what, &refused(number), &ran.answer, inputs);
    }
}

/// A few orders and placements of a function, at times points and calls that are refused, and each rule broken.
pub fn random(report: &mut Report, random: &mut Random, table: &[u8], id: u16) {
    let Ok(version_1) = independent::compile(table, id, usize::MAX) else {
        return;
    };
    let function = Reordered::new(table, id, &version_1);
    for _ in 0..4 {
        let (order, placement) = (*random.pick(&Order::ALL), *random.pick(&Placement::ALL));
        let code = function.write(report, random, order, placement);
        function.taken(report, random, &code);
        match random.below(8) {
            0 => points::compiled(report, random, &function.meaning, &code),
            1 => refusals(report, random, &code),
            _ => {}
        }
    }
    for broken in Broken::ALL {
        function.broken(report, random, broken);
    }
}

/// Random functions that fill version 1's words.
const FULL: usize = 20;

/// Every kind of order in every kind of placement for functions of known shape, also at the limits of version 1.
pub fn fixed(report: &mut Report, random: &mut Random) {
    let mut graphs = shapes::all_shapes();
    graphs.extend([shapes::case_a(), shapes::case_k()]);
    graphs.extend([shapes::case_n(0), shapes::case_o(0)]);
    graphs.extend(reuse::small());
    graphs.extend((0..FULL).map(|_| random_full(random)));
    for graph in &graphs {
        let table = graph.to_bytes();
        let id = graph.functions.last().expect("a function").id;
        let Ok(version_1) = independent::compile(&table, id, usize::MAX) else {
            continue;
        };
        let function = Reordered::new(&table, id, &version_1);
        for order in Order::ALL {
            for placement in Placement::ALL {
                let code = function.write(report, random, order, placement);
                function.taken(report, random, &code);
                refusals(report, random, &code);
            }
            let code = function.write(report, random, order, Placement::Spread);
            points::compiled(report, random, &function.meaning, &code);
            for broken in Broken::ALL {
                function.broken(report, random, broken);
            }
        }
    }
}
