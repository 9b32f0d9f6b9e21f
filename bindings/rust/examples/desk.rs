//! Prints what `examples/c/desk.c` prints: `cargo run --example desk TRACK < BATCH`. It feeds a batch, says why lines
//! were refused, and prints at the end what the desk knows.

use rbc::{Desk, Fault, Reply, Waits};
use std::error::Error;
use std::io::{self, BufRead};

const WAYS: [&str; 3] = ["down", "up", "both"];
const WAITS: [&str; 5] =
    ["conditional stop", "unconditional stop", "restriction", "revocation of a stop", "revocation of a restriction"];

fn print_state(desk: &mut Desk) -> Result<(), Fault> {
    for train in desk.trains()? {
        print!("train {}: length {}, stamp {}, ", train.engine, train.length, train.stamp);
        if train.placed == 1 {
            let facing = WAYS[train.facing.0 as usize];
            print!("line {}, {}-{}, facing {facing}, ", train.line, train.from, train.to);
        } else {
            print!("no place, ");
        }
        println!("holds {} stop and {} restriction identifiers", train.stops, train.restrictions);
    }
    for stop in desk.stops()? {
        println!("stop {}: {}:{}-{}", stop.number, stop.line, stop.from, stop.to);
    }
    for one in desk.restrictions()? {
        let ways = WAYS[one.ways.0 as usize];
        println!("restriction {}: {}:{}-{} {ways} {} {}", one.number, one.line, one.from, one.to, one.speed, one.front);
    }
    for one in desk.outstanding()? {
        let kind = WAITS[one.kind.0 as usize];
        print!("waiting: train {}, identifier {}, stamp {}, {kind}", one.engine, one.identifier, one.stamp);
        match one.kind {
            Waits::REVOCATION_OF_STOP | Waits::REVOCATION_OF_RESTRICTION => println!(),
            _ => println!(" {}", one.number),
        }
    }
    Ok(())
}

fn main() -> Result<(), Box<dyn Error>> {
    let track = std::env::args().nth(1).ok_or("usage: desk TRACK < BATCH")?;
    let track = std::fs::read_to_string(track)?;
    println!("rules {}", rbc::rules());
    let report = rbc::check(&track)?;
    if report.refused != 0 {
        print!("{}", report.text);
        std::process::exit(1);
    }
    let mut desk = Desk::open(&track)?;
    for (number, line) in (1..).zip(io::stdin().lock().split(b'\n')) {
        let line = line?;
        if let Reply::Refused(_) = desk.feed(&line)? {
            print!("line {number}: {}", desk.explain(&line)?);
        }
    }
    Ok(print_state(&mut desk)?)
}
