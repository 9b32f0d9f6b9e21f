//! Prints what `dispatch live --alarms` prints: `cargo run --example live TRACK < BATCH`.

use rbc::{Alarm, AlarmKind, Desk, Fault, Reply};
use std::error::Error;
use std::io::{self, BufRead, Write};

/// Calls again, once, where there was no memory: nothing was changed. A radio block centre frees some first.
macro_rules! again {
    ($number:expr, $call:expr) => {
        match $call {
            Err(Fault::MEMORY) => {
                eprintln!("live: no memory at line {}, tried again", $number);
                $call?
            }
            other => other?,
        }
    };
}

fn print(out: &mut impl Write, number: usize, how: &str, alarm: &Alarm) -> io::Result<()> {
    let kind = ["place", "stop", "restriction", "answer"][alarm.kind.0 as usize];
    write!(out, "{number} {how} {} {kind}", alarm.engine)?;
    if alarm.kind != AlarmKind::PLACE {
        write!(out, " {}", alarm.number)?;
    }
    writeln!(out)
}

/// The alarms of only one of two lists.
fn print_changes(out: &mut impl Write, number: usize, old: &[Alarm], now: &[Alarm]) -> io::Result<()> {
    let mut all: Vec<&Alarm> = old.iter().chain(now).collect();
    all.sort();
    all.dedup();
    for alarm in all {
        match (old.contains(alarm), now.contains(alarm)) {
            (true, false) => print(out, number, "cleared", alarm)?,
            (false, true) => print(out, number, "raised", alarm)?,
            _ => {}
        }
    }
    Ok(())
}

fn main() -> Result<(), Box<dyn Error>> {
    let track = std::env::args().nth(1).ok_or("usage: live TRACK < BATCH")?;
    let track = std::fs::read_to_string(track)?;
    let mut out = io::BufWriter::new(io::stdout().lock());
    let mut desk = again!(0, Desk::open(&track));
    let mut old = Vec::new();
    for (number, line) in (1..).zip(io::stdin().lock().split(b'\n')) {
        let line = line?;
        match again!(number, desk.feed(&line)) {
            Reply::Refused(code) => writeln!(out, "{number} refused {code}")?,
            Reply::Done(messages) => {
                writeln!(out, "{number} ok {}", messages.len())?;
                for message in messages {
                    write!(out, "{} {number} ", message.engine)?;
                    for byte in message.bytes() {
                        write!(out, "{byte:02X}")?;
                    }
                    writeln!(out)?;
                }
            }
        }
        let now = again!(number, desk.alarms());
        print_changes(&mut out, number, &old, &now)?;
        old = now;
    }
    out.flush()?;
    Ok(())
}
