//! The command line.

use std::path::PathBuf;

pub const USAGE: &str = "comparison/run [--seed N] [--calls N] [--damaged N] [--texts N] [--bench PATH]";

/// The variable that names the bench program where --bench does not.
const BENCH_VARIABLE: &str = "BENCH_PROGRAM";

pub struct Options {
    pub seed: u64,
    pub calls: u64,
    pub damaged: u64,
    pub texts: u64,
    /// Without a bench program no text is compared.
    pub bench: Option<PathBuf>,
}

impl Options {
    /// The options, or what is wrong with them.
    pub fn read() -> Result<Options, String> {
        let mut options = Options {
            seed: 1,
            calls: 20_000_000,
            damaged: 2_000_000,
            texts: 2_000,
            bench: std::env::var_os(BENCH_VARIABLE).map(PathBuf::from),
        };
        let mut texts_asked = false;
        let mut arguments = std::env::args().skip(1);
        while let Some(name) = arguments.next() {
            let value = arguments.next().ok_or(format!("{name} needs a value"))?;
            match name.as_str() {
                "--seed" => options.seed = number(&name, &value)?,
                "--calls" => options.calls = number(&name, &value)?,
                "--damaged" => options.damaged = number(&name, &value)?,
                "--texts" => {
                    options.texts = number(&name, &value)?;
                    texts_asked = options.texts > 0;
                }
                "--bench" => options.bench = Some(PathBuf::from(value)),
                _ => return Err(format!("{name} is not known")),
            }
        }
        options.checked(texts_asked)
    }

    /// A bench program that was named and is absent is an error, and so are texts asked for without one: nothing is left out in silence.
    fn checked(mut self, texts_asked: bool) -> Result<Options, String> {
        match &self.bench {
            Some(path) if !path.is_file() => Err(format!("the bench program {} is absent", path.display())),
            None if texts_asked => Err(format!("--texts needs a bench program: --bench PATH or {BENCH_VARIABLE}")),
            None => {
                self.texts = 0;
                Ok(self)
            }
            Some(_) => Ok(self),
        }
    }
}

fn number(name: &str, value: &str) -> Result<u64, String> {
    value.parse().map_err(|_| format!("{name} {value}: not a number"))
}
