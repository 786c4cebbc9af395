//! The command line of a program that draws a picture: options with whole numbers, then names; `--check` and `--help`
//! are everyone's.

use std::array;
use std::ffi::OsString;
use std::fs::{self, File};
use std::io::{Write, stdout};
use std::ops::RangeInclusive;
use std::path::Path;
use std::process::ExitCode;

/// What a program says of itself.
pub struct Program<const NUMBERS: usize, const NAMES: usize> {
    pub name: &'static str,
    pub help: &'static str,
    pub numbers: [Number; NUMBERS],
    /// What stands behind the options, such as TABLE and PICTURE.
    pub names: [&'static str; NAMES],
}

/// An option that takes a whole number.
pub struct Number {
    pub option: &'static str,
    /// What a message calls it, such as "the size".
    pub noun: &'static str,
    pub range: RangeInclusive<u64>,
    pub default: u64,
}

/// What the command line asks for.
pub struct Request<const NUMBERS: usize, const NAMES: usize> {
    pub check: bool,
    pub numbers: [u64; NUMBERS],
    pub names: [OsString; NAMES],
}

pub enum Failure {
    /// The command line is wrong.
    Usage(String),
    /// What it asks for failed.
    Other(String),
}

impl From<String> for Failure {
    fn from(text: String) -> Failure {
        Failure::Other(text)
    }
}

impl<const NUMBERS: usize, const NAMES: usize> Program<NUMBERS, NAMES> {
    /// Does by `run` what the command line asks for and prints the lines that it gives.
    pub fn main(
        &self,
        run: impl FnOnce(Request<NUMBERS, NAMES>) -> Result<String, Failure>,
    ) -> ExitCode {
        let done = match self.request(std::env::args_os().skip(1)) {
            Ok(Some(request)) => run(request),
            Ok(None) => Ok(self.help.into()),
            Err(text) => Err(Failure::Usage(text)),
        };
        let name = self.name;
        match done {
            Ok(text) => {
                // A reader that has gone is no failure.
                let _ = stdout().write_all(text.as_bytes());
                ExitCode::SUCCESS
            }
            Err(Failure::Usage(text)) => {
                let names = self.names.join(" ");
                eprintln!(
                    "{name}: {text}\nusage: {name} [OPTIONS] {names} ({name} --help says more)"
                );
                ExitCode::from(2)
            }
            Err(Failure::Other(text)) => {
                eprintln!("{name}: {text}");
                ExitCode::FAILURE
            }
        }
    }

    /// What the command line asks for; nothing if it is help.
    fn request(
        &self,
        mut arguments: impl Iterator<Item = OsString>,
    ) -> Result<Option<Request<NUMBERS, NAMES>>, String> {
        let mut numbers = array::from_fn(|k| self.numbers[k].default);
        let (mut check, mut options, mut names) = (false, true, Vec::new());
        while let Some(argument) = arguments.next() {
            let text = argument.to_string_lossy().into_owned();
            let (option, value) = match text.split_once('=') {
                Some((option, value)) => (option, Some(OsString::from(value))),
                None => (&text[..], None),
            };
            // A number may have a minus.
            if !options || !text.starts_with('-') || text.parse::<f64>().is_ok() {
                names.push(argument);
                continue;
            }
            let number = self.numbers.iter().position(|n| n.option == option);
            match (option, value, number) {
                ("--help" | "-h", None, _) => return Ok(None),
                ("--check", None, _) => check = true,
                ("--", None, _) => options = false,
                (_, value, Some(k)) => {
                    let Some(value) = value.or_else(|| arguments.next()) else {
                        return Err(format!("{option} needs a number"));
                    };
                    numbers[k] = self.numbers[k].read(&value)?;
                }
                _ => return Err(format!("no such option: {text}")),
            }
        }
        let given = names.len();
        let names = names.try_into().map_err(|_| {
            let (last, others) = self.names.split_last().expect("a name");
            format!("{} and {last} are wanted, {given} given", others.join(", "))
        })?;
        Ok(Some(Request {
            check,
            numbers,
            names,
        }))
    }

    /// Writes the picture and gives the line that says what was done; with `--check` it compares with the picture that
    /// is there and says so instead.
    pub fn deliver(
        &self,
        request: &Request<NUMBERS, NAMES>,
        picture: &Path,
        file: &[u8],
        done: &str,
    ) -> Result<String, Failure> {
        let (name, shown) = (self.name, picture.display());
        if !request.check {
            write(picture, file)?;
            return Ok(format!("{name}: {done}: {shown}\n"));
        }
        match read(picture)? == file {
            true => Ok(format!("{name}: {shown} is what the library gives\n")),
            false => Err(Failure::Other(format!(
                "{shown} is not what the library gives"
            ))),
        }
    }
}

impl Number {
    /// Which function of the table.
    pub const fn function(default: u64) -> Number {
        Number {
            option: "--function",
            noun: "the id",
            range: 0..=65535,
            default,
        }
    }

    /// Which of many random choices.
    pub const fn seed(default: u64) -> Number {
        Number {
            option: "--seed",
            noun: "the seed",
            range: 0..=65535,
            default,
        }
    }

    fn read(&self, value: &OsString) -> Result<u64, String> {
        let number = value.to_str().and_then(|value| value.parse().ok());
        number
            .filter(|number| self.range.contains(number))
            .ok_or_else(|| {
                let (noun, low, high) = (self.noun, self.range.start(), self.range.end());
                format!(
                    "{noun} is a whole number from {low} to {high}, not {}",
                    value.display()
                )
            })
    }
}

/// The bytes of a file.
pub fn read(path: &Path) -> Result<Vec<u8>, Failure> {
    fs::read(path).map_err(|error| Failure::Other(format!("{}: {error}", path.display())))
}

/// Writes a file whole, or leaves none.
fn write(path: &Path, bytes: &[u8]) -> Result<(), Failure> {
    let written = File::create(path).and_then(|mut file| {
        file.write_all(bytes).inspect_err(|_| {
            if path.is_file() {
                let _ = fs::remove_file(path);
            }
        })
    });
    written.map_err(|error| Failure::Other(format!("{}: {error}", path.display())))
}
