#!/usr/bin/env python3
"""What rows of bits give over plain lists of truth values: the ratio of the time that both take in one run.

The program is compiled with the checks of `rt try`; a proved build is faster on both sides.
"""
from kit import run

SOURCE = """#![tactic(auto)]

use fp_rows::Row;
use std::time::Instant;

const LENGTH: u32 = 1_000_000;

const TURNS: u32 = 20;

fn main(rt: HostRuntime) -> Result<(), anyhow::Error> {
    let alloc = rt.alloc();
    let mut row = Row::new(alloc, LENGTH)?;
    let mut other = Row::new(alloc, LENGTH)?;
    let mut list = vec![in alloc; false; LENGTH as usize]?;
    let mut list_other = vec![in alloc; false; LENGTH as usize]?;
    for at in 0..LENGTH {
        row.set(at, at % 3 != 0);
        other.set(at, at % 5 != 0);
        list[at as usize] = at % 3 != 0;
        list_other[at as usize] = at % 5 != 0;
    }
    let start = Instant::now(&rt)?;
    let mut counted = 0u64;
    for turn in 0..TURNS {
        row.and_with(&other);
        row.clear_range(turn, turn + 1);
        counted += u64::from(row.count());
    }
    let lanes = start.elapsed(&rt)?.as_micros();
    let start = Instant::now(&rt)?;
    let mut plainly = 0u64;
    for turn in 0..TURNS {
        for at in 0..LENGTH as usize {
            list[at] = list[at] && list_other[at];
        }
        list[turn as usize] = false;
        for bit in &list {
            plainly += u64::from(*bit);
        }
    }
    let plain = start.elapsed(&rt)?.as_micros();
    let agree = counted == plainly;
    println!(rt; "and, clear and count of 1,000,000 bits: rows {lanes} us, plain lists {plain} us, {} times as long, same answers: {agree}", plain / lanes.max(1))?;
    Ok(())
}
"""

print(run(SOURCE, ["fp_rows:"], ["fp_rows", "anyhow"]), end="")
