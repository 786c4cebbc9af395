//! Times of the library against the independent program, and the deepest stack,
//! as Markdown tables.

mod count;
#[cfg(feature = "judge")]
mod judge;
#[cfg(feature = "run")]
mod lists;
#[cfg(feature = "points")]
mod points;
#[cfg(feature = "run")]
mod runs;
mod stack;
mod tables;
mod time;
#[cfg(feature = "evaluate_version")]
mod versions;
#[cfg(feature = "run")]
mod write;

fn main() {
    #[cfg(feature = "run")]
    if let [_, flag, dir] = &std::env::args().collect::<Vec<_>>()[..]
        && flag == "--write"
    {
        return write::write(dir.as_ref());
    }
    println!(
        "Ratios are the library's time over the independent program's: below 1 the library is"
    );
    println!("faster. Both are measured in one run, in batches that alternate; medians.");
    tables::check();
    #[cfg(feature = "compile")]
    tables::compile();
    #[cfg(feature = "run")]
    runs::run();
    #[cfg(feature = "points")]
    points::points();
    #[cfg(feature = "evaluate")]
    runs::evaluate();
    #[cfg(feature = "evaluate_version")]
    versions::all();
    #[cfg(feature = "judge")]
    judge::judge();
    for (name, there) in [
        ("compile", cfg!(feature = "compile")),
        ("run", cfg!(feature = "run")),
        ("points", cfg!(feature = "points")),
        ("evaluate", cfg!(feature = "evaluate")),
        ("evaluate_version", cfg!(feature = "evaluate_version")),
        ("judge", cfg!(feature = "judge")),
    ] {
        if !there {
            println!("\nNot measured: {name} (the feature is off).");
        }
    }
}
