#!/usr/bin/env python3
"""How good and how quick the local search's plans are: on generated instances, on lines and hubs, and on carriers' days.

    bench/local_search.py [TURNS [LOOSE...]]
    ONLY=WORD bench/local_search.py ..         the rows alone whose names have the word, as `day`

From the direct plan of each instance it makes a search of TURNS turns for each LOOSE, with draws of its own, and prints the direct plan's cost, that
of the cheapest plan found, the seconds of all searches, and how much of what they saved was by turns that took out shipments
which share an arc, pass a terminal at about one moment, or leave together, in per cent. The program is proved first, which takes some minutes where nothing is kept.
"""
import os
import subprocess
import sys

from instances import generated, hubs, line
from kit import TOP, is_wanted, proved

# The seed, the terminals and the shipments of each generated instance.
SIZES = ((1, 6, 15), (2, 6, 15), (3, 6, 15), (1, 8, 30), (2, 8, 30), (7, 8, 30), (1, 10, 40), (1, 12, 50), (2, 12, 50), (1, 20, 60), (1, 50, 200))

# What each carrier's day is called, and the words of tools/day that make it.
DAYS = (
    ("day 20x60", "1 --terminals 20 --hubs 3 --arcs 62 --shipments 60 --pallets 6"),
    ("day 30x150 s1", "1"),
    ("day 30x150 s2", "2"),
    ("day 30x150 s3", "3"),
    ("day 50x300", "1 --terminals 50 --hubs 5 --arcs 170 --shipments 300 --pallets 6"),
)

USES = ["fp_ends", "fp_model", "fp_records", "fp_reader", "fp_flatnet", "fp_timetable", "fp_repair_search", "anyhow"]

SOURCE = """//! Local searches from the direct plan of an instance on standard input. The words are the turns and the allowances.
#![tactic(auto)]

use anyhow::{Result, bail};
use fp_ends::{Resources, StdSource, read_all};
use fp_flatnet::{Verdict, Windows, direct, feasible};
use fp_repair_search::{Earnings, Search, local_search_with_earnings};
use fp_model::Instance;
use fp_reader::{Tail, instance};
use fp_records::records;
use fp_timetable::cost;
use std::alloc::Global;
use std::env;
use std::time::Instant;

// The instance of a text.
fn told(alloc: Global, text: &[u8]) -> Result<Instance> {
    let lines = records(alloc, text)?;
    if lines.len() > 1_000_000 {
        bail!("too long");
    }
    match instance(alloc, &lines, Tail::Alone) {
        Ok(read) => Ok(read.instance),
        Err(_) => bail!("no instance"),
    }
}

// Searches once for each allowance: the direct cost, the least cost met, and what each removal earned.
fn searched(alloc: Global, instance: &Instance, turns: u32, looses: &[u32]) -> Result<(u128, u128, Earnings)> {
    if feasible(alloc, instance)? != Verdict::All {
        bail!("not in time");
    }
    let plan = direct(alloc, instance)?;
    let windows = Windows::of(alloc, instance)?;
    let first = cost(alloc, instance, &plan)?;
    let mut least = first;
    let mut earned = Earnings { arc: 0, terminal: 0, departure: 0 };
    let seed = u64::try_from(first).unwrap_or(0);
    for (number, loose) in looses.iter().enumerate() {
        let search = Search {
            seed: seed.wrapping_add(number as u64),
            turns,
            loose: *loose,
        };
        let (found, by) = local_search_with_earnings(&Resources::endless(alloc), instance, &windows, &plan, search)?;
        earned.arc = earned.arc.saturating_add(by.arc);
        earned.terminal = earned.terminal.saturating_add(by.terminal);
        earned.departure = earned.departure.saturating_add(by.departure);
        least = least.min(cost(alloc, instance, &found)?);
    }
    Ok((first, least, earned))
}

fn main(rt: HostRuntime) -> Result<()> {
    let alloc = rt.alloc();
    let mut numbers = Vec::new(alloc);
    for word in env::args(&rt)?.skip(1) {
        numbers.push(word.as_str().parse::<u32>().unwrap_or(0))?;
    }
    let (Some(turns), Some(looses)) = (numbers.get(0), numbers.as_slice().get(1..)) else {
        return Ok(());
    };
    let Ok(text) = read_all(alloc, &mut StdSource::new(rt.stdin()), 1 << 20) else {
        bail!("no text");
    };
    let instance = told(alloc, &text)?;
    let start = Instant::now(&rt)?;
    let (first, least, earned) = searched(alloc, &instance, *turns, looses)?;
    let taken = start.elapsed(&rt)?.as_millis();
    let Earnings { arc, terminal, departure } = earned;
    println!(rt; "{first} {least} {taken} {arc} {terminal} {departure}")?;
    Ok(())
}
"""


def crates_below(names):
    """The lines of crates.txt of some crates and of those below them, in its order."""
    with open(os.path.join(TOP, "crates.txt")) as file:
        lines = [line.strip() for line in file if ":" in line and not line.startswith("#")]
    below = {line.split(":")[0]: line.split(":")[1].split() for line in lines}
    wanted = set()
    while names:
        name = names.pop()
        if name in below and name not in wanted:
            wanted.add(name)
            names += below[name]
    return [line for line in lines if line.split(":")[0] in wanted]


def rows():
    """What each instance is called, and its records."""
    for seed, terminals, shipments in SIZES:
        yield f"{terminals}x{shipments} s{seed}", generated(seed, terminals, shipments)
    yield "line 6 with 20", line(6, 20, 720)
    yield "hub of 10 with 30", hubs(1, 9, 30, 720)
    yield "hubs 2x6 with 30", hubs(2, 6, 30, 720)
    for name, words in DAYS:
        made = subprocess.run([sys.executable, os.path.join(TOP, "tools", "day")] + words.split(), stdout=subprocess.PIPE, check=True)
        yield name, made.stdout.decode()


def main():
    words = sys.argv[1:] if len(sys.argv) > 2 else (sys.argv[1:] or ["20000"]) + ["30", "60"]
    with proved(SOURCE, crates_below(list(USES)), USES) as program:
        print(f"{'instance':18} {'direct':>9} {'search':>9}  seconds   arc terminal departure")
        for name, text in rows():
            if is_wanted(name):
                done = subprocess.run([program] + words, input=text.encode(), stdout=subprocess.PIPE, check=True)
                direct, least, taken, *earned = done.stdout.decode().split()
                parts = [100 * int(part) / max(1, sum(map(int, earned))) for part in earned]
                print(f"{name:18} {direct:>9} {least:>9} {int(taken) / 1000:8.3f} {parts[0]:4.0f}% {parts[1]:7.0f}% {parts[2]:8.0f}%")


main()
