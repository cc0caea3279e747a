//! Four threads share one network, guarded by a mutex. Each removes and adds links of its own; the log has
//! the order of the lock. In the end the transcript is judged, and has every thread's entries.

use rudekpi::{audit, Fault, Network, Rules, Verdict};
use std::error::Error;
use std::sync::{Mutex, MutexGuard};
use std::thread;

const THREADS: u32 = 4;
const TURNS: u32 = 1000;

fn locked(net: &Mutex<Network>) -> MutexGuard<'_, Network> {
    net.lock().unwrap_or_else(|poisoned| poisoned.into_inner())
}

/// Links and unlinks one edge repeatedly, and lets the network settle after each.
fn edit(net: &Mutex<Network>, thread: u32) -> Result<(), Fault> {
    let (a, b) = (2 * thread + 1, 2 * thread + 2);
    for turn in 0..TURNS {
        locked(net).link(a, b)?;
        locked(net).drive(u64::from(turn), 10)?;
        locked(net).unlink(a, b)?;
    }
    Ok(())
}

fn main() -> Result<(), Box<dyn Error>> {
    let net = Mutex::new(Network::new(Rules::Manne, 2 * THREADS)?);
    thread::scope(|scope| {
        let threads: Vec<_> = (0..THREADS)
            .map(|it| {
                scope.spawn({
                    let net = &net;
                    move || edit(net, it)
                })
            })
            .collect();
        threads
            .into_iter()
            .try_for_each(|it| it.join().map_err(|_| Fault::BadArgument)?)
    })?;
    let verdict = audit(&locked(&net).take_transcript())?;
    println!("{verdict}");
    match verdict {
        Verdict::Accepted(it) if it.entries >= 2 * THREADS * TURNS => Ok(()),
        _ => Err("the log lacks entries".into()),
    }
}
