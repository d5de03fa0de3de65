//! The command line.

use crate::layout::SIZES;

pub struct Options {
    pub seed: u64,
    /// Calls on consistent memory and calls on torn memory.
    pub calls: u64,
    pub torn: u64,
    /// The segment counts to draw from; empty for the usual mix.
    pub segments: Vec<u32>,
    /// The segment sizes to draw from, in KiB.
    pub sizes: Vec<u32>,
    /// Examine after so many calls; 0 for the usual number at the segment count.
    pub examine_every: u32,
    /// Only this list, or only this case of torn memory.
    pub only: Option<u64>,
    /// Guard words before and behind each slice.
    pub guard: usize,
    /// Whether a situation that never came is a failure.
    pub complete: bool,
    pub quiet: bool,
}

pub const HELP: &str = "differential: plays lists of calls on the verified library, on an independent implementation and on the unbounded
heap, compares every answer, and plays calls on torn memory.

  --seed S            the campaign follows from it (default 1)
  --calls N           calls on consistent memory (default 40000000)
  --torn N            calls on torn memory (default 4000000)
  --long              400 million calls and 20 million on torn memory
  --mode lists|torn   only the one or the other
  --segments 1,2,64   segment counts to draw from (default a mix of 1 to 256)
  --kib 32            segment sizes to draw from (default 16,32)
  --examine-every K   calls between examinations (default by segment count)
  --only L            only list L (with --mode torn: case L)
  --exact             no guard words around the slices: each ends where its block ends (for valgrind)
  --partial           do not fail where a situation was never met
  --quiet             no progress line";

fn number<T: std::str::FromStr>(name: &str, value: Option<String>) -> Result<T, String> {
    let value = value.ok_or(format!("{name} wants a number"))?;
    value.parse().map_err(|_| format!("{name} {value}: not a number"))
}

impl Options {
    fn usual() -> Options {
        Options {
            seed: 1,
            calls: 40_000_000,
            torn: 4_000_000,
            segments: Vec::new(),
            sizes: SIZES.to_vec(),
            examine_every: 0,
            only: None,
            guard: 64,
            complete: true,
            quiet: false,
        }
    }

    pub fn parse(mut args: impl Iterator<Item = String>) -> Result<Options, String> {
        let mut options = Options::usual();
        let mut mode = String::new();
        while let Some(name) = args.next() {
            match name.as_str() {
                "--seed" => options.seed = number(&name, args.next())?,
                "--calls" => options.calls = number(&name, args.next())?,
                "--torn" => options.torn = number(&name, args.next())?,
                "--long" => (options.calls, options.torn) = (400_000_000, 20_000_000),
                "--mode" => mode = args.next().unwrap_or_default(),
                "--segments" => options.segments = numbers(&name, args.next(), |count| (1..=256).contains(&count))?,
                "--kib" => options.sizes = numbers(&name, args.next(), |kib| SIZES.contains(&kib))?,
                "--examine-every" => options.examine_every = number(&name, args.next())?,
                "--only" => options.only = Some(number(&name, args.next())?),
                "--exact" => options.guard = 0,
                "--partial" => options.complete = false,
                "--quiet" => options.quiet = true,
                _ => return Err(format!("{name}: no such option\n\n{HELP}")),
            }
        }
        options.with_mode(&mode)
    }

    fn with_mode(mut self, mode: &str) -> Result<Options, String> {
        match mode {
            "" => {}
            "lists" => self.torn = 0,
            "torn" => self.calls = 0,
            _ => return Err(format!("--mode {mode}: lists or torn")),
        }
        self.complete &= self.only.is_none() && mode.is_empty() && self.segments.is_empty() && self.sizes == SIZES;
        Ok(self)
    }
}

/// Numbers with commas, each of which is one of the option's.
fn numbers(name: &str, value: Option<String>, is_one: fn(u32) -> bool) -> Result<Vec<u32>, String> {
    let value = value.ok_or(format!("{name} wants numbers"))?;
    let numbers: Result<Vec<u32>, _> = value.split(',').map(str::parse).collect();
    match numbers {
        Ok(numbers) if numbers.iter().all(|&number| is_one(number)) => Ok(numbers),
        _ => Err(format!("{name} {value}: counts from 1 to 256, or sizes of 16 or 32, with commas")),
    }
}
