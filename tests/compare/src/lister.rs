//! The lister program: what it prints for an input that comes in parts.

use std::io::Write;
use std::process::{Command, Stdio};
use std::time::Duration;

use generate::random::Random;
use generate::tables::{damaged_table, random_graph};
use generate::{examples, shapes};

use crate::check::settled;
use crate::report::{Part, Report, hex};

/// How the input is handed over.
#[derive(Clone, Copy, Debug)]
enum Parts {
    Whole,
    /// Parts of at most this many bytes.
    Pieces(usize),
    /// Such parts, with a pause after each of the first few.
    Slowly(usize),
}

/// Feeds a program and gives what it prints.
fn print(lister: &str, input: &[u8], parts: Parts) -> std::io::Result<Vec<u8>> {
    let mut command = Command::new(lister);
    let mut child = command
        .stdin(Stdio::piped())
        .stdout(Stdio::piped())
        .spawn()?;
    let mut stdin = child.stdin.take().expect("a pipe");
    let piece = match parts {
        Parts::Whole => input.len().max(1),
        Parts::Pieces(piece) | Parts::Slowly(piece) => piece,
    };
    for (k, bytes) in input.chunks(piece).enumerate() {
        // A lister that has read enough may close its end.
        if stdin.write_all(bytes).is_err() {
            break;
        }
        if matches!(parts, Parts::Slowly(_)) && k < 5 {
            std::thread::sleep(Duration::from_millis(2));
        }
    }
    drop(stdin);
    Ok(child.wait_with_output()?.stdout)
}

fn compare(report: &mut Report, lister: &str, input: &[u8], parts: Parts) {
    let wanted = independent::listing(input);
    let got = print(lister, input, parts).unwrap_or_else(|error| error.to_string().into_bytes());
    let text = |bytes: &[u8]| String::from_utf8_lossy(bytes).into_owned();
    report.met(
        Part::Lister,
        &independent::check(&input[..input.len().min(65_536)]),
    );
    report.same("the listing", &text(&wanted), &text(&got), || {
        format!(
            "  {} bytes, {parts:?}: {}",
            input.len(),
            hex(&input[..input.len().min(2000)])
        )
    });
}

pub fn all(report: &mut Report, random: &mut Random, lister: &str, count: usize) {
    let mut inputs: Vec<Vec<u8>> = settled().into_iter().map(|example| example.table).collect();
    inputs.extend(examples().into_iter().map(|(_, table)| table));
    inputs.extend(shapes::all_shapes().iter().map(|graph| graph.to_bytes()));
    for input in &inputs {
        for parts in [Parts::Whole, Parts::Slowly(7), Parts::Pieces(1000)] {
            compare(report, lister, input, parts);
        }
    }
    // Around and above 65,536 bytes.
    let longest = shapes::longest().to_bytes();
    for length in [65_534, 65_535, 65_536, 65_537, 70_000, 131_072, 400_000] {
        for fill in [0, 0x49] {
            let mut input = longest.clone();
            input.resize(length, fill);
            for parts in [
                Parts::Whole,
                Parts::Slowly(30_000),
                Parts::Pieces(4096),
                Parts::Pieces(1021),
            ] {
                compare(report, lister, &input, parts);
            }
        }
    }
    let mut wrapped = shapes::case_a().to_bytes();
    wrapped.resize(65_536 + 30, 0);
    compare(report, lister, &wrapped, Parts::Whole);

    for k in 0..count {
        let graph = random_graph(random);
        let input = match k % 2 {
            0 => graph.to_bytes(),
            _ => damaged_table(random, &graph),
        };
        let parts = match random.below(10) {
            0 => Parts::Slowly(random.range(1, 5000)),
            1..=4 => Parts::Pieces(random.range(1, 300)),
            _ => Parts::Whole,
        };
        compare(report, lister, &input, parts);
    }
}
