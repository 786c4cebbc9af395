//! The code of tables, and the buffer it is written to.

use generate::random::Random;
use generate::shapes;

use crate::check::{as_independent, fixed_tables};
use crate::marked::Marked;
use crate::report::{Part, Report, hex};

/// More than every code's length.
pub const ENOUGH: usize = 80_000;

/// Holds the answer and the whole buffer, for a buffer of this length.
pub fn compare(report: &mut Report, table: &[u8], id: u16, length: usize) {
    let wanted = independent::compile(table, id, length);
    let mut buffer = Marked::bytes(length);
    let got = as_independent(quetlapin::compile(table, id, buffer.lent()));
    let code = wanted.as_deref().unwrap_or(&[]);
    let wanted_buffer = Marked::bytes(length).with_front(code);
    let inputs = || format!("  function {id}, buffer of {length}, table {}", hex(table));
    report.same_buffer("compile: the buffer", &wanted_buffer, &buffer, inputs);
    report.hold(Part::Compile, wanted.map(|code| code.len()), got, inputs);
}

/// Holds a function at buffer lengths around the needed one; gives its code.
pub fn compare_around(
    report: &mut Report,
    random: &mut Random,
    table: &[u8],
    id: u16,
) -> Option<Vec<u8>> {
    let code = independent::compile(table, id, usize::MAX);
    let Ok(code) = code else {
        let length = *random.pick(&[0, 20, 300]);
        compare(report, table, id, length);
        return None;
    };
    let need = code.len();
    match random.below(40) {
        0 => {
            for length in need - 4..=need + 4 {
                compare(report, table, id, length);
            }
        }
        1 if need < 120 => {
            for length in 0..=need + 1 {
                compare(report, table, id, length);
            }
        }
        2 => compare(report, table, id, ENOUGH),
        3..=6 => compare(report, table, id, need - 1),
        7..=9 => compare(report, table, id, random.below(need)),
        10..=20 => compare(report, table, id, need),
        21..=30 => compare(report, table, id, need + 1),
        _ => compare(report, table, id, need + random.below(40)),
    }
    Some(code)
}

pub fn fixed(report: &mut Report) {
    let a = shapes::case_a().to_bytes();
    let code = [
        0x49, 0x46, 0x52, 0x01, 0x00, 0x02, 0x01, 0x00, 0x01, 0x00, 0x03, 0x00, 0x03, 0x01, 0x00,
        0x00, 0x01, 0x00, 0x02, 0x00,
    ];
    let mut buffer = [0; 20];
    let got = as_independent(quetlapin::compile(&a, 1, &mut buffer));
    report.same("example A's code", &(Ok(20), code), &(got, buffer), || {
        hex(&a)
    });

    for table in fixed_tables() {
        for id in 0..=17 {
            if id > 2 && table.len() < 1000 {
                break;
            }
            let need = independent::compile(&table, id, usize::MAX).map_or(0, |code| code.len());
            for length in [need, need.saturating_sub(1)] {
                compare(report, &table, id, length);
            }
        }
    }
    for graph in [
        shapes::case_n(0),
        shapes::case_o(0),
        shapes::largest(),
        shapes::chains(),
    ] {
        let table = graph.to_bytes();
        let id = graph.functions.last().expect("a function").id;
        let need = independent::compile(&table, id, usize::MAX)
            .expect("within the limits")
            .len();
        for length in need - 3..=need + 3 {
            compare(report, &table, id, length);
        }
        compare(report, &table, id, ENOUGH);
    }
}
