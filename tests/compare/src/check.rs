//! The verdict on tables.

use generate::graph::{Graph, mend_length};
use generate::shapes;
use independent::Refusal;

use crate::report::{Part, Report, hex};

/// The library's refusal as the independent program's.
pub fn as_independent<T>(answer: Result<T, quetlapin::Refusal>) -> Result<T, Refusal> {
    answer.map_err(|refusal| Refusal {
        number: refusal.number,
        place: refusal.place,
    })
}

/// Holds the verdict on a table.
pub fn compare(report: &mut Report, table: &[u8]) {
    let wanted = independent::check(table);
    let got = as_independent(quetlapin::check(table));
    report.hold(Part::Check, wanted, got, || {
        format!("  table {}", hex(table))
    });
}

/// A with one byte changed.
fn a_with(at: usize, byte: u8) -> Vec<u8> {
    let mut table = shapes::case_a().to_bytes();
    table[at] = byte;
    table
}

/// A settled example that is a table, with the verdict that 01 gives.
pub struct Settled {
    pub name: &'static str,
    pub table: Vec<u8>,
    pub verdict: Result<usize, Refusal>,
}

pub fn settled() -> Vec<Settled> {
    let accepted = |name, graph: Graph, count| Settled {
        name,
        table: graph.to_bytes(),
        verdict: Ok(count),
    };
    let refused = |name, table, number, place| Settled {
        name,
        table,
        verdict: Err(Refusal { number, place }),
    };
    vec![
        accepted("A", shapes::case_a(), 1),
        refused("B", vec![], 1, 0),
        refused("C", a_with(6, 0x1F), 4, 6),
        refused("D", a_with(3, 2), 3, 3),
        refused("E", a_with(10, 9), 6, 8),
        refused("F", a_with(22, 0x3F), 6, 20),
        refused("G", a_with(16, 2), 12, 17),
        refused("H", a_with(29, 2), 11, 27),
        refused("I", a_with(24, 1), 13, 20),
        accepted("K", shapes::case_k(), 1),
        accepted("M", shapes::case_m(), 1),
        accepted("N", shapes::case_n(0), 2),
        accepted("N and one", shapes::case_n(1), 2),
        accepted("O", shapes::case_o(0), 2),
        accepted("O and one", shapes::case_o(1), 2),
    ]
}

/// Tables of a known shape: the settled examples, limits, every byte of A and K changed.
pub fn fixed_tables() -> Vec<Vec<u8>> {
    let mut tables: Vec<Vec<u8>> = settled().into_iter().map(|example| example.table).collect();
    tables.extend(shapes::all_shapes().iter().map(Graph::to_bytes));
    for good in [shapes::case_a().to_bytes(), shapes::case_k().to_bytes()] {
        for at in 0..good.len() {
            for byte in [0, 1, 2, 3, 4, 5, 8, 9, 16, 17, 24, 25, 127, 128, 255] {
                let mut table = good.clone();
                table[at] = byte;
                tables.push(table);
            }
        }
    }
    // Longer than a length field can say.
    let longest = shapes::longest().to_bytes();
    for more in [1, 2, 8, 65_536, 131_072] {
        let mut table = longest.clone();
        table.resize(longest.len() + more, 0);
        tables.push(table.clone());
        mend_length(&mut table);
        tables.push(table);
    }
    let mut wrapped = shapes::case_a().to_bytes();
    wrapped.resize(65_536 + 30, 0);
    tables.push(wrapped);
    tables
}

pub fn fixed(report: &mut Report) {
    for example in settled() {
        let got = as_independent(quetlapin::check(&example.table));
        let what = format!("example {}", example.name);
        report.same(&what, &example.verdict, &got, || hex(&example.table));
    }
    for table in fixed_tables() {
        compare(report, &table);
    }
    // Every cut of a table that has all kinds.
    let typical = shapes::typical().to_bytes();
    for length in 0..typical.len() {
        let mut table = typical[..length].to_vec();
        compare(report, &table);
        mend_length(&mut table);
        compare(report, &table);
    }
}
