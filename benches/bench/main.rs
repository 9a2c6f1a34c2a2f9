//! What the parts cost. Without words each work is done once, and what came of it is printed, never a time. With the
//! word `time` the least time of some rounds is printed beside it.
#![tactic(auto)]

mod draw;
mod parts;
mod programs;
mod report;
mod server_steps;
mod sets;
mod stores;

use report::Rounds;
use std::{env, io};

fn main(rt: HostRuntime) -> io::Result<()> {
    let words: Vec<String> = env::args(&rt)?.skip(1).collect(rt.alloc())?;
    let rounds = match words.as_slice() {
        [] => Rounds::Once,
        [word] if word.as_str() == "time" => Rounds::Timed,
        _ => return println!(&rt; "bench: without words, or with the word time"),
    };
    sets::report_all(&rt, rounds)?;
    programs::report_all(&rt, rounds)?;
    stores::report_all(&rt, rounds)?;
    server_steps::report_all(&rt, rounds)
}
