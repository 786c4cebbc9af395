//! From a table to output words in one call.

use generate::random::Random;
use independent::Refusal;

use crate::check::as_independent;
use crate::marked::Marked;
use crate::report::{Part, Report, hex, hex_words};
use crate::run::{argument_words, some_arguments, some_room};

/// Holds `evaluate`: compile, then run on the code's bytes alone. A refusal leaves all three buffers.
pub fn compare(report: &mut Report, random: &mut Random, table: &[u8], id: u16) {
    let good = independent::compile(table, id, usize::MAX).unwrap_or_default();
    let length = match random.below(20) {
        0 => good.len().saturating_sub(1),
        1..=10 => good.len(),
        _ => good.len() + random.below(30),
    };
    let arguments = some_arguments(random, argument_words(&good));
    let room = some_room(random, &good, 1);

    let (mut work, mut out) = (Marked::words(room.work), Marked::words(room.out));
    let mut code = Marked::bytes(length);
    let compiled = independent::compile(table, id, length);
    let wanted: Result<usize, Refusal> = compiled.and_then(|bytes| {
        let ran = independent::run(&bytes, &arguments, work.lent(), out.lent());
        if ran.is_ok() {
            code = Marked::bytes(length).with_front(&bytes);
        }
        ran
    });

    let (mut got_work, mut got_out) = (Marked::words(room.work), Marked::words(room.out));
    let mut got_code = Marked::bytes(length);
    let got = as_independent(quetlapin::evaluate(
        table,
        id,
        &arguments,
        got_code.lent(),
        got_work.lent(),
        got_out.lent(),
    ));
    let inputs = || {
        let arguments = hex_words(&arguments);
        format!(
            "  function {id}, code {length}, {room:?}, arguments {arguments}\n  table {}",
            hex(table)
        )
    };
    report.same_buffer("evaluate: the code buffer", &code, &got_code, inputs);
    report.same_buffer("evaluate: the work buffer", &work, &got_work, inputs);
    report.same_buffer("evaluate: the output buffer", &out, &got_out, inputs);
    if let Ok(count) = wanted {
        let meaning = independent::evaluate(table, id, &arguments);
        report.same(
            "evaluate: the meaning",
            &meaning[..],
            got_out.front(count),
            inputs,
        );
    }
    report.hold(Part::Evaluate, wanted, got, inputs);
}
