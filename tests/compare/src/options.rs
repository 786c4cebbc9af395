//! What the command line asks for.

pub const USAGE: &str = "\
compare [OPTION VALUE]...
  --seed N      where the random numbers begin (1)
  --tables N    random tables, and as many damaged ones (40000)
  --runs N      least number of runs (150000)
  --lister PATH the lister program, compared if given";

pub struct Options {
    pub seed: u64,
    pub tables: usize,
    #[cfg_attr(not(feature = "run"), allow(dead_code))]
    pub runs: u64,
    pub lister: Option<String>,
}

impl Options {
    /// The options of the command line, or none if it is wrong.
    pub fn read(mut arguments: impl Iterator<Item = String>) -> Option<Options> {
        let mut options = Options {
            seed: 1,
            tables: 40_000,
            runs: 150_000,
            lister: None,
        };
        while let Some(name) = arguments.next() {
            let value = arguments.next()?;
            match name.as_str() {
                "--seed" => options.seed = value.parse().ok()?,
                "--tables" => options.tables = value.parse().ok()?,
                "--runs" => options.runs = value.parse().ok()?,
                "--lister" => options.lister = Some(value),
                _ => return None,
            }
        }
        Some(options)
    }
}
