//! One line for each work.

use std::io;
use std::time::Instant;

/// How often a work is done.
#[derive(Clone, Copy, Debug, PartialEq, Eq)]
pub enum Rounds {
    /// Once, and no time is printed.
    Once,
    /// Often enough for a least time, which is printed.
    Timed,
}

impl Rounds {
    /// How many rounds.
    pub fn count(self) -> u32 {
        match self {
            Rounds::Once => 1,
            Rounds::Timed => 200,
        }
    }
}

/// The least time of some rounds, in nanoseconds.
#[derive(Clone, Copy, Debug)]
pub struct Least {
    nanoseconds: u128,
}

impl Least {
    /// No round yet.
    pub fn new() -> Least {
        Least {
            nanoseconds: u128::MAX,
        }
    }

    /// One more round, begun at a moment.
    pub fn since(&mut self, rt: &HostRuntime, start: &Instant) -> io::Result<()> {
        self.nanoseconds = self.nanoseconds.min(start.elapsed(rt)?.as_nanos());
        Ok(())
    }
}

/// Prints what came of a work, and where asked the least time of a part of it.
pub fn print(
    rt: &HostRuntime,
    rounds: Rounds,
    work: &str,
    came: &str,
    least: Least,
    parts: u128,
) -> io::Result<()> {
    match rounds {
        Rounds::Once => println!(rt; "{work}: {came}"),
        Rounds::Timed => {
            let nanoseconds = least.nanoseconds / parts.max(1);
            println!(rt; "{work}: {came}, {nanoseconds} ns")
        }
    }
}
