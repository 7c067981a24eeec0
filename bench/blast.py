#!/usr/bin/env python3
"""How long the clauses of a goal take to make: goals of 1,000,000 clauses whose terms are all distinct, and of half as many.

    bench/blast.py [RUNS]     makes each so often (5), and prints the least wall times in milliseconds

It copies the crates that it needs into a temporary folder, with a program that makes the terms and takes the time of `blast`,
and of the test that no term is an application. There it has `rt run` prove and build what is not kept on this machine.
"""

import pathlib
import re
import subprocess
import sys
import tempfile

from search import copied

# The definitions of the tests name the last one.
NEEDED = ["cocoon_num", "numbering", "cnf_core", "bv_terms", "bit_blast", "flat_laws"]
PROGRAM = """//! Takes the time of `blast`.
#![tactic(auto)]

mod building;

use building::{binary, blasted, input, slice};
use bv_terms::{TermId, TermOp, Terms};
use std::test::Fail;
use std::time::Instant;

/// Exclusive ors of numbers of one bit with one input.
fn chain(terms: &mut Terms, count: u32) -> Option<TermId> {
    let x = input(terms, 1)?;
    let mut goal = input(terms, 1)?;
    for _ in 0..count {
        goal = binary(terms, TermOp::Xor, goal, x)?;
    }
    Some(goal)
}

/// Exclusive ors of numbers of eight bits, each with an input of its own.
fn inputs(terms: &mut Terms, count: u32) -> Option<TermId> {
    let mut sum = input(terms, 8)?;
    for _ in 0..count {
        let next = input(terms, 8)?;
        sum = binary(terms, TermOp::Xor, sum, next)?;
    }
    slice(terms, sum, 0, 0)
}

fn main(rt: HostRuntime) -> Result<(), Fail> {
    for _ in 0..RUNS {
        for (is_chain, count) in [(true, 250_000), (true, 125_000), (false, 31_250), (false, 15_625)] {
            let mut terms = Terms::new(rt.alloc());
            let made = if is_chain { chain(&mut terms, count) } else { inputs(&mut terms, count) };
            let goal = made.ok_or("no goal")?;
            let start = Instant::now(&rt)?;
            let (cnf, _) = blasted(rt.alloc(), &terms, goal).ok_or("no list")?;
            let micros = start.elapsed(&rt)?.as_micros();
            let kind = if is_chain { "chain" } else { "inputs" };
            print!(rt; "{} {} {kind} {micros}\\n", cnf.clauses.items().len(), cnf.vars)?;
        }
    }
    Ok(())
}
"""


def main():
    runs = int(sys.argv[1]) if len(sys.argv) > 1 else 5
    with tempfile.TemporaryDirectory() as name:
        program = copied(pathlib.Path(name), NEEDED, "blast_time", ["building"])
        (program / "src" / "main.rt").write_text(PROGRAM.replace("RUNS", str(runs)))
        said = subprocess.run(["rt", "run"], cwd=program, stdout=subprocess.PIPE, stderr=subprocess.STDOUT, text=True).stdout
    least = {}
    for clauses, variables, kind, micros in re.findall(r"^(\d+) (\d+) (\w+) (\d+)$", said, re.MULTILINE):
        key = (kind, int(clauses), int(variables))
        least[key] = min(int(micros), least.get(key, int(micros)))
    if not least:
        sys.exit(said)
    for (kind, clauses, variables), micros in least.items():
        print(f"{kind}: {clauses:,} clauses over {variables:,} variables: {micros / 1000:.0f} ms")


if __name__ == "__main__":
    main()
