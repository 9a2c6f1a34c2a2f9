//! Programs: what looking at them and running them costs.

ghost use Rattle.std.specs.Prelude.{◌≡◌};

use crate::report::{self, Least, Rounds};
use assembler::assemble;
use flat_machine::run;
use insn::layout::Layout;
use insn::program::Program;
use machine::run::{Outcome, run_checked};
use std::alloc::{AllocError, Global};
use std::io;
use std::time::Instant;
use verifier::verified::{Verified, verify};

/// The text of a program, and what it is: its head, a byte stored in each of so many blocks of the stack, its turns, its tail.
struct Work {
    name: &'static str,
    head: &'static str,
    stored: usize,
    turn: &'static str,
    turns: usize,
    tail: &'static str,
}

/// The programs, most of them of 4,096 slots.
const WORKS: [Work; 9] = [
    Work {
        name: "straight",
        head: "",
        stored: 0,
        turn: "mov64 r0 1\n",
        turns: 4095,
        tail: "exit\n",
    },
    Work {
        name: "branches to one place",
        head: "mov64 r0 1\n",
        stored: 0,
        turn: "jne64 r0 1 end\n",
        turns: 4094,
        tail: "end:\nexit\n",
    },
    Work {
        name: "branches to the next place",
        head: "mov64 r0 1\n",
        stored: 0,
        turn: "jeq64 r0 1 +0\n",
        turns: 4094,
        tail: "exit\n",
    },
    Work {
        name: "sums",
        head: "mov64 r0 0\nldxdw r2 r1 8\n",
        stored: 0,
        turn: "add64 r0 r2\nxor64 r0 r2\nadd32 r0 7\nrsh64 r0 3\n",
        turns: 1000,
        tail: "exit\n",
    },
    Work {
        name: "loads, stores, spills and jumps",
        head: "mov64 r0 1\nldxdw r2 r1 8\n",
        stored: 0,
        turn: "stxdw r10 -8 r2\nldxdw r3 r10 -8\nstxdw r10 -16 r1\nldxdw r4 r10 -16\nldxw r5 r4 16\njgt64 r3 r5 +1\nadd64 r0 r5\nstw r1 48 250\n",
        turns: 500,
        tail: "exit\n",
    },
    Work {
        name: "diamonds with a spill each",
        head: "mov64 r0 1\nldxdw r2 r1 8\n",
        stored: 0,
        turn: "jgt64 r2 7 +1\nstxdw r10 -8 r2\n",
        turns: 2000,
        tail: "exit\n",
    },
    Work {
        name: "uncertain stores",
        head: "mov64 r0 1\nldxb r2 r1 0\nand64 r2 255\nmov64 r3 r10\nadd64 r3 -300\nadd64 r3 r2\n",
        stored: 0,
        turn: "stb r3 0 7\n",
        turns: 4000,
        tail: "exit\n",
    },
    // two flags make four cases, which go through diamonds with a store at an uncertain place each, while every block of the
    // stack has a number of its own
    Work {
        name: "four cases, all stored",
        head: "mov64 r0 1\nldxdw r2 r1 8\nldxdw r3 r1 16\nldxdw r4 r1 24\nmov64 r7 0\nmov64 r8 0\njgt64 r2 7 +1\nmov64 r7 1\njgt64 r3 7 +1\nmov64 r8 1\nmov64 r9 r10\nadd64 r9 -300\nldxb r5 r1 0\nadd64 r9 r5\n",
        stored: 64,
        turn: "jge64 r4 r2 +1\nstxdw r9 0 r4\n",
        turns: 2000,
        tail: "exit\n",
    },
    // four cases, in each of which six registers are linked with the one that is compared. The worst that was found is its
    // like, with nine links and another constant in each turn: it takes one and a half times as long
    Work {
        name: "links and four cases",
        head: "mov64 r0 1\nldxdw r2 r1 8\nldxdw r3 r1 16\nmov64 r7 0\nmov64 r8 0\njgt64 r2 7 +1\nmov64 r7 1\njgt64 r3 7 +1\nmov64 r8 1\nldxdw r0 r1 0\nmov64 r2 r0\nadd64 r2 2\nmov64 r3 r0\nadd64 r3 3\nmov64 r4 r0\nadd64 r4 4\nmov64 r5 r0\nadd64 r5 5\nmov64 r6 r0\nadd64 r6 6\nmov64 r9 r0\nadd64 r9 9\n",
        stored: 64,
        turn: "jge64 r0 r4 +1\n",
        turns: 4000,
        tail: "mov64 r0 0\nexit\n",
    },
];

/// The whole text of a program.
fn text_of(alloc: Global, work: &Work) -> Result<String, AllocError> {
    let (head, tail) = (work.head, work.tail);
    let mut stores = String::new(alloc);
    for block in 0..work.stored {
        let at = block.saturating_add(1).saturating_mul(8);
        stores.push_str(&format!(in alloc; "stxb r10 -{at} r2\n")?)?;
    }
    let turns = work.turn.repeat(alloc, work.turns)?;
    format!(in alloc; "{head}{stores}{turns}{tail}")
}

/// The program of a work.
fn program_of(alloc: Global, work: &Work) -> Result<Option<Program>, AllocError> {
    let text = text_of(alloc, work)?;
    Ok(assemble(alloc, &text).ok())
}

/// Looks at a program in rounds, and prints its verdict.
fn report_verdict(rt: &HostRuntime, rounds: Rounds, work: &Work) -> io::Result<()> {
    let mut least = Least::new();
    let mut came = "refused";
    for _ in 0..rounds.count() {
        let Some(program) = program_of(rt.alloc(), work)? else {
            return println!(rt; "{}: no program", work.name);
        };
        let start = Instant::now(rt)?;
        let verdict = verify(rt.alloc(), program, Layout::V1);
        least.since(rt, &start)?;
        came = if verdict.is_ok() {
            "accepted"
        } else {
            "refused"
        };
    }
    let name = format!(in rt.alloc(); "verify, {}", work.name)?;
    report::print(rt, rounds, &name, came, least, 1)
}

/// How a run ended.
fn ending(alloc: Global, outcome: Outcome) -> Result<String, AllocError> {
    match outcome {
        Outcome::Exit(r0, steps) => format!(in alloc; "{r0} after {steps} steps"),
        Outcome::Stuck(slot) => format!(in alloc; "stuck at {slot}"),
    }
}

/// Of how many steps its time is.
fn step_count(outcome: Outcome) -> usize {
    match outcome {
        Outcome::Exit(_, steps) => steps,
        Outcome::Stuck(_) => 1,
    }
}

/// Runs a program on the checked machine in rounds, and prints how it ended.
fn report_checked_run(rt: &HostRuntime, rounds: Rounds, work: &Work) -> io::Result<()> {
    let Some(program) = program_of(rt.alloc(), work)? else {
        return println!(rt; "{}: no program", work.name);
    };
    let mut least = Least::new();
    let mut outcome = Outcome::Stuck(0);
    for _ in 0..rounds.count() {
        let mut record = [9u8; 64];
        let start = Instant::now(rt)?;
        outcome = run_checked(&program, Layout::V1, &mut record);
        least.since(rt, &start)?;
    }
    let name = format!(in rt.alloc(); "a step of run_checked, {}", work.name)?;
    let came = ending(rt.alloc(), outcome)?;
    report::print(rt, rounds, &name, &came, least, step_count(outcome) as u128)
}

/// Runs a verified program on the machine that tests no access, in rounds, and prints how it ended.
fn report_flat_run(
    rt: &HostRuntime,
    rounds: Rounds,
    work: &Work,
    verified: &Verified,
) -> io::Result<()>
    requires { verified.now.layout ≡ Layout.V1 }
{
    let mut least = Least::new();
    let mut outcome = Outcome::Stuck(0);
    for _ in 0..rounds.count() {
        let mut record = [9u8; 64];
        let start = Instant::now(rt)?;
        let (r0, steps) = run(verified, &mut record);
        least.since(rt, &start)?;
        outcome = Outcome::Exit(r0, steps);
    }
    let name = format!(in rt.alloc(); "a step of run, {}", work.name)?;
    let came = ending(rt.alloc(), outcome)?;
    report::print(rt, rounds, &name, &came, least, step_count(outcome) as u128)
}

/// Each program: its verdict, and its run on both machines, where it is accepted.
pub fn report_all(rt: &HostRuntime, rounds: Rounds) -> io::Result<()> {
    for work in &WORKS {
        report_verdict(rt, rounds, work)?;
        report_checked_run(rt, rounds, work)?;
        if let Some(program) = program_of(rt.alloc(), work)? {
            match verify(rt.alloc(), program, Layout::V1) {
                Ok(verified) => report_flat_run(rt, rounds, work, &verified)?,
                Err(_) => {}
            }
        }
    }
    Ok(())
}
