#!/usr/bin/env python3
"""How the largest time-expanded network is built, and lengthened a thousand times.

100 terminals, 62,000 points, 1,000 arcs, which makes some 620,000 classes. Prints the time and what its points and heads take; the program is compiled with
the checks of `rt try`, so a proved build is faster.
"""
from kit import run

SOURCE = """#![tactic(auto)]

use fp_longestarcs::Network;
use fp_model::{Arc, Instance, Name};
use fp_timenodes::{Place, Points};
use std::time::Instant;

fn main(rt: HostRuntime) -> Result<(), anyhow::Error> {
    let alloc = rt.alloc();
    let mut terminals = Vec::new(alloc);
    let mut holds = Vec::new(alloc);
    for terminal in 0..100u32 {
        let digits = [b'0' + (terminal / 10) as u8, b'0' + (terminal % 10) as u8];
        terminals.push(Name::new(alloc, &digits)?)?;
        holds.push(5u32)?;
    }
    let mut arcs = Vec::new(alloc);
    for arc in 0..1000u32 {
        let from = arc % 100;
        let to = (from + 1 + arc / 100) % 100;
        arcs.push(Arc { from, to, time: 1000 + arc * 7, capacity: 10, truck: 10, freight: 1 })?;
    }
    let instance = Instance::new(terminals, holds, arcs, Vec::new(alloc));
    let mut first = Vec::new(alloc);
    for number in 0..62_000u32 {
        first.push(Place { terminal: number % 100, at: (number / 100) * 161 + number % 100 })?;
    }
    let start = Instant::now(&rt)?;
    let points = Points::new(alloc, 100, &first)?;
    let mut network = Network::of(alloc, &instance, &points, 0)?;
    let built = start.elapsed(&rt)?.as_millis();
    let start = Instant::now(&rt)?;
    let mut lengthened = 0u32;
    let mut arc = 0u32;
    let mut place = 0usize;
    while lengthened < 1000 {
        let taken = instance.arc(arc);
        let at = network.points(taken.from)[place % network.points(taken.from).len()];
        let reached = at + taken.time + 5;
        if reached <= 100_000 && network.head(arc, at) < reached {
            network.lengthen(alloc, &instance, arc, at)?;
            lengthened += 1;
        }
        arc = (arc + 37) % 1000;
        place += 101;
    }
    let changed = start.elapsed(&rt)?.as_millis();
    let mut kept = 0usize;
    for terminal in 0..100u32 {
        kept += network.points(terminal).len();
    }
    let kilobytes = 4 * (kept + network.classes() as usize) / 1024;
    println!(rt; "{} classes: built in {built} ms, lengthened 1,000 times in {changed} ms, {kilobytes} kB of points and heads", network.classes())?;
    Ok(())
}
"""

print(run(SOURCE, ["fp_model:", "fp_timenodes:", "fp_longestarcs: fp_model fp_timenodes"], ["fp_model", "fp_timenodes", "fp_longestarcs", "anyhow"]), end="")
