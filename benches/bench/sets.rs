//! Sets of words: what one operation on two unknown words costs.

use crate::report::{self, Least, Rounds};
use insn::operation::{BinOp, Width};
use range::domain::Domain;
use scalar::Scalar;
use std::io;
use std::time::Instant;

/// How many operations one round does.
const OPERATIONS: u32 = 10_000;

/// The operations, with their names.
const ASKED: [(BinOp, &str); 6] = [
    (BinOp::Add, "add"),
    (BinOp::Mul, "mul"),
    (BinOp::And, "and"),
    (BinOp::Lsh, "lsh"),
    (BinOp::Div, "div"),
    (BinOp::Smod, "smod"),
];

/// What many operations in a row give, each on what the one before gave and an unknown word.
fn repeated(op: BinOp, width: Width, times: u32) -> Scalar {
    let mut left = Scalar::any();
    for _ in 0..times {
        left = Scalar::apply(op, width, left, Scalar::any());
    }
    left
}

/// Each operation in both widths.
pub fn report_all(rt: &HostRuntime, rounds: Rounds) -> io::Result<()> {
    for (op, name) in ASKED {
        for (width, bits) in [(Width::W64, 64), (Width::W32, 32)] {
            let mut least = Least::new();
            let mut left = Scalar::any();
            for _ in 0..rounds.count() {
                let start = Instant::now(rt)?;
                left = repeated(op, width, OPERATIONS);
                least.since(rt, &start)?;
            }
            let (low, high) = left.bounds();
            let came = format!(in rt.alloc(); "{low} to {high}")?;
            let work = format!(in rt.alloc(); "{name}{bits} of unknown words")?;
            report::print(rt, rounds, &work, &came, least, OPERATIONS as u128)?;
        }
    }
    Ok(())
}
