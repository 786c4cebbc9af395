//! Holds the library to the independent program.
//!
//! Ends with status 0 only if there is no difference and every refusal was met.

mod check;
#[cfg(feature = "compile")]
mod compile;
#[cfg(feature = "evaluate")]
mod evaluate;
mod lister;
#[cfg(any(feature = "compile", feature = "run"))]
mod marked;
mod options;
#[cfg(feature = "judge_placement")]
mod placement;
#[cfg(feature = "points")]
mod points;
#[cfg(feature = "evaluate_version")]
mod reorder;
mod report;
#[cfg(feature = "evaluate_version")]
mod reuse;
#[cfg(feature = "run")]
mod run;
#[cfg(feature = "evaluate_version")]
mod versions;

use std::process::ExitCode;
use std::time::Instant;

use generate::graph::Graph;
use generate::random::Random;
use generate::tables::{damaged_table, random_graph};

use crate::options::{Options, USAGE};
use crate::report::{Part, Report};

/// With fewer tables than this, a refusal may stay unmet.
const ENOUGH_TABLES: usize = 20_000;

/// Of 100 random tables, those whose lists are also written in other orders.
#[cfg(feature = "evaluate_version")]
const REORDERED: usize = 30;

/// Of 100 random tables, those for which lists are proposed.
#[cfg(feature = "judge_placement")]
const PROPOSED: usize = 20;

/// Random and damaged inputs for the lister.
const LISTINGS: usize = 400;

fn main() -> ExitCode {
    let Some(options) = Options::read(std::env::args().skip(1)) else {
        println!("{USAGE}");
        return ExitCode::FAILURE;
    };
    // The independent evaluation recurses along references, through up to 16 functions of 256 nodes.
    let thread = std::thread::Builder::new().stack_size(256 << 20);
    let comparison = thread.spawn(move || compare(&options)).expect("a thread");
    match comparison.join() {
        Ok(true) => ExitCode::SUCCESS,
        _ => ExitCode::FAILURE,
    }
}

/// Compares everything; whether all was well.
fn compare(options: &Options) -> bool {
    let start = Instant::now();
    let mut report = Report::new();
    let mut random = Random::new(options.seed);
    // Proposals draw from numbers of their own, so that all else meets the same inputs with and without them.
    #[cfg(feature = "judge_placement")]
    let mut proposing = Random::new(!options.seed);

    check::fixed(&mut report);
    #[cfg(feature = "compile")]
    compile::fixed(&mut report);
    #[cfg(feature = "run")]
    {
        run::fixed(&mut report, &mut random);
        run::every_kind(&mut report, &mut random);
    }
    #[cfg(feature = "points")]
    points::fixed(&mut report);
    #[cfg(feature = "evaluate_version")]
    {
        versions::fixed(&mut report, &mut random);
        reuse::fixed(&mut report, &mut random);
        reorder::fixed(&mut report, &mut random);
        points::fixed_2(&mut report);
    }
    #[cfg(feature = "judge_placement")]
    placement::fixed(&mut report, &mut proposing);
    for _ in 0..options.tables {
        random_table(
            &mut report,
            &mut random,
            #[cfg(feature = "judge_placement")]
            &mut proposing,
        );
    }
    #[cfg(feature = "run")]
    while report.count(Part::Run) < options.runs {
        run::list(&mut report, &mut random);
    }
    if let Some(path) = &options.lister {
        lister::all(&mut report, &mut random, path, LISTINGS);
    }

    let (seed, tables) = (options.seed, options.tables);
    println!("seed {seed}, {tables} random tables and as many damaged ones");
    report.print();
    #[cfg(feature = "evaluate_version")]
    for (name, _) in least_counts() {
        println!("{name}: {}", report.counted(name));
    }
    let complete = tables < ENOUGH_TABLES || all_met(&report);
    println!("{:.1} seconds", start.elapsed().as_secs_f64());
    println!("{} differences", report.differences);
    report.differences == 0 && complete
}

/// An id of the graph, mostly.
fn some_id(random: &mut Random, graph: &Graph) -> u16 {
    match random.below(12) {
        0 => random.word() as u16,
        1 => 0,
        // The last function calls most.
        2..=5 => graph.functions.last().expect("a function").id,
        _ => random.pick(&graph.functions).id,
    }
}

/// A random table and a damaged one: verdicts, codes, runs, evaluations, as far as the library has them.
#[allow(unused_variables)]
fn random_table(
    report: &mut Report,
    random: &mut Random,
    #[cfg(feature = "judge_placement")] proposing: &mut Random,
) {
    let graph = random_graph(random);
    let table = graph.to_bytes();
    let damaged = damaged_table(random, &graph);
    check::compare(report, &table);
    check::compare(report, &damaged);

    let id = some_id(random, &graph);
    let id_damaged = some_id(random, &graph);
    #[cfg(feature = "compile")]
    {
        compile::compare_around(report, random, &table, id);
        compile::compare_around(report, random, &damaged, id_damaged);
    }
    #[cfg(feature = "run")]
    {
        if let Ok(code) = independent::compile(&table, id, usize::MAX) {
            let meaning = independent::Meaning::of(&table, id);
            run::compiled(report, random, &meaning, &code);
            run::compiled(report, random, &meaning, &code);
            run::damaged_compiled(report, random, &code);
            #[cfg(feature = "points")]
            if random.chance(50) {
                points::compiled(report, random, &meaning, &code);
            }
        }
        run::list(report, random);
    }
    #[cfg(feature = "points")]
    if random.chance(50) {
        points::list(report, random);
    }
    #[cfg(feature = "evaluate")]
    {
        evaluate::compare(report, random, &table, id);
        if random.chance(20) {
            evaluate::compare(report, random, &damaged, id_damaged);
        }
    }
    #[cfg(feature = "evaluate_version")]
    {
        versions::random(report, random, &table, id);
        if random.chance(30) {
            versions::random(report, random, &damaged, id_damaged);
        }
        reuse::random(report, random, &table, id);
        if random.chance(REORDERED) {
            reorder::random(report, random, &table, id);
        }
    }
    #[cfg(feature = "judge_placement")]
    if proposing.chance(PROPOSED) {
        placement::random(report, proposing, &graph, id, &damaged);
    }
}

/// Whether each part met every refusal it can give; says which it did not.
fn all_met(report: &Report) -> bool {
    let by_version = cfg!(feature = "evaluate_version");
    let placement = cfg!(feature = "judge_placement");
    let parts = [
        (true, Part::Check, 1, 13),
        (cfg!(feature = "compile"), Part::Compile, 1, 17),
        (cfg!(feature = "run"), Part::Run, 18, 21),
        (cfg!(feature = "points"), Part::Points, 18, 22),
        (cfg!(feature = "evaluate"), Part::Evaluate, 1, 17),
        (cfg!(feature = "evaluate"), Part::Evaluate, 19, 21),
        (by_version, Part::CompileVersion, 1, 17),
        (by_version, Part::CompileVersion, 31, 31),
        (by_version, Part::RunVersion2, 18, 21),
        (by_version, Part::PointsVersion2, 18, 22),
        (by_version, Part::EvaluateVersion, 1, 17),
        (by_version, Part::EvaluateVersion, 19, 21),
        (by_version, Part::EvaluateVersion, 31, 31),
        (placement, Part::JudgePlacement, 1, 16),
        (placement, Part::JudgePlacement, 18, 18),
        (placement, Part::JudgePlacement, 29, 29),
        (placement, Part::JudgePlacement, 33, 33),
    ];
    let mut complete = true;
    for (there, part, first, last) in parts {
        for number in report.never_met(part, first, last) {
            if there {
                println!("{part:?} never met refusal {number}");
                complete = false;
            }
        }
    }
    #[cfg(feature = "evaluate_version")]
    for (name, least) in least_counts() {
        let met = report.counted(name);
        if met < least {
            println!("{name}: met {met} times, not {least}");
            complete = false;
        }
    }
    complete
}

/// What a whole run must have counted, and how often at least.
#[cfg(feature = "evaluate_version")]
fn least_counts() -> Vec<(&'static str, u64)> {
    let counts = reorder::COUNTED.map(|name| (name, 1)).to_vec();
    #[cfg(feature = "judge_placement")]
    let counts = [counts, placement::counted()].concat();
    counts
}
