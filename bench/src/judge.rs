//! Judging a router's list, over compiling the same function in version 2.

use std::hint::black_box;

use generate::proposals::{Gap, Proposal, Route};
use generate::random::Random;
use generate::reorder::{List, Order, Placement};
use generate::shapes;

use crate::stack::deepest;
use crate::tables::{Case, case, code, compiled, duration, stack_cell};
use crate::time::{keep, medians, pair};

const SIDES: [&str; 2] = ["judge", "compile"];

/// The most that a typical table may take.
const LIMIT: f64 = 3.0;

/// The most stack that a call may take, in bytes.
#[cfg(test)]
const STACK: usize = 131_072;

/// A row: a list that is proposed for a function.
struct Row {
    name: String,
    case: Case,
    proposal: Proposal,
}

/// Our own list of version 2, its instructions as in version 1.
fn own(case: Case) -> Row {
    let code = code(&case, 2).expect("within the limits");
    Row {
        name: case.name.into(),
        proposal: Proposal::in_order(&code),
        case,
    }
}

/// Any order that respects the reads.
fn reordered(
    case: Case,
    name: &str,
    addresses: fn(&List, &mut Random, Vec<usize>) -> Route,
) -> Row {
    let list = List::new(&code(&case, 1).expect("within the limits"));
    let mut random = Random::new(11);
    let order = list.order(&mut random, Order::Any);
    Row {
        name: format!("{}, {name}", case.name),
        proposal: list.propose(&addresses(&list, &mut random, order)),
        case,
    }
}

/// With words of its own for each value, as request 10 has it.
fn own_words(case: Case) -> Row {
    reordered(case, "another order", |list, random, order| Route {
        addresses: list.placement(random, Placement::Packed),
        order,
    })
}

/// With each result on any words that nothing reads any more.
fn any_gap(case: Case) -> Row {
    reordered(
        case,
        "another order, words used again",
        |list, random, order| list.route(random, order, Gap::Near),
    )
}

/// Our own list, refused at its first instruction, whose number version 1 does not have.
fn refused_first(case: Case) -> Row {
    let mut row = own(case);
    row.name += ", refused at its first instruction";
    row.proposal.numbers[0] = row.proposal.code.instruction_count;
    row
}

/// Our own list, refused at its last output, which is an argument's word.
fn refused_last(case: Case) -> Row {
    let mut row = own(case);
    row.name += ", refused at its last output";
    *row.proposal.code.outputs.last_mut().expect("an output") = 0;
    row
}

fn rows() -> Vec<Row> {
    let typical = || compiled().into_iter().filter(|case| case.typical);
    let fullest = || case("4,096 operations, 8,192 words", shapes::fullest());
    let mut rows: Vec<Row> = compiled().into_iter().map(own).collect();
    rows.extend(typical().map(own_words));
    rows.extend(typical().map(any_gap));
    rows.extend([own, own_words, refused_first, refused_last].map(|row| row(fullest())));
    rows
}

pub fn judge() {
    println!("\n## Judge\n");
    println!(
        "Ratios are the time of judging over that of compiling the function in version 2, both of the library, in batches that alternate."
    );
    println!(
        "The list is our own of version 2, unless its row says another. The last ratio is over the independent program's judging.\n"
    );
    println!(
        "| table, its last function | instructions | words | judge | compile | ratio | limit | independent | ratio | stack (at most 131,072) |"
    );
    println!("|---|--:|--:|--:|--:|--:|--:|--:|--:|--:|");
    let mut buffer = vec![0; quetlapin::LONGEST_CODE_2];
    for Row {
        name,
        case,
        proposal,
    } in rows()
    {
        let (table, id) = (&case.table[..], case.id);
        let (code, numbers) = (&proposal.code.to_bytes()[..], &proposal.numbers[..]);
        let got = quetlapin::judge_placement(table, id, code, numbers);
        let wanted = independent::judge_placement(table, id, code, numbers);
        assert!(
            got.map_err(|refusal| (refusal.number, refusal.place))
                == wanted.map_err(|refusal| (refusal.number, refusal.place)),
            "{name}"
        );
        let mut judge = || {
            let table = black_box(table);
            keep(quetlapin::judge_placement(table, id, code, numbers));
        };
        let mut compile = || {
            let table = black_box(table);
            keep(quetlapin::compile_version(table, id, 2, &mut buffer));
        };
        let mut independent = || {
            let table = black_box(table);
            keep(independent::judge_placement(table, id, code, numbers));
        };
        let row = format!("judge over compile|{name}");
        let over = pair(&row, SIDES, &mut judge, &mut compile);
        let times = medians(&format!("judge|{name}"), &mut judge, &mut independent);
        let limit = match case.typical {
            true => format!("{LIMIT:.1}"),
            false => String::new(),
        };
        println!(
            "| {name} | {} | {} | {} | {} | {:.2} | {limit} | {} | {:.2} | {} |",
            proposal.code.instruction_count,
            proposal.code.words,
            duration(over[0]),
            duration(over[1]),
            over[2],
            duration(times.independent),
            times.ratio,
            stack_cell(deepest(&mut judge)),
        );
    }
}

#[cfg(test)]
mod tests {
    use super::*;

    /// Frames stay apart by how the back end inlines, which no proof sees: 16 levels of calls go deepest.
    #[test]
    fn stack_as_the_header_says() {
        for Row {
            name,
            case,
            proposal,
        } in rows()
        {
            let (code, numbers) = (proposal.code.to_bytes(), &proposal.numbers[..]);
            let mut judge = || {
                keep(quetlapin::judge_placement(
                    &case.table,
                    case.id,
                    &code,
                    numbers,
                ));
            };
            let deep = deepest(&mut judge);
            assert!(deep.is_none_or(|bytes| bytes <= STACK), "{name}: {deep:?}");
        }
    }
}
