//! A ring of twelve nodes settles, a fault and a departing node break it, and it recovers. The transcript
//! goes to standard output; the pairs and the verdict go to standard error.

use rudekpi::{audit, Fault, Network, Rules, Verdict};
use std::error::Error;
use std::io::Write;

fn mend() -> Result<Vec<u8>, Fault> {
    let mut ring = Network::new(Rules::Manne, 12)?;
    for node in 1..=12 {
        ring.link(node, node % 12 + 1)?;
    }
    ring.drive(7, 100)?;
    eprintln!("pairs: {:?}", ring.matching()?);
    eprintln!("node 4 that leaves costs {} moves at most", ring.cost_of_leave(4)?);
    ring.point(1, Some(12))?;
    ring.leave(4)?;
    ring.drive(8, 100)?;
    eprintln!("mended: {:?}", ring.matching()?);
    let counts = ring.status()?;
    eprintln!("{} pairs after {} moves", counts.pairs, counts.spent);
    Ok(ring.take_transcript())
}

fn main() -> Result<(), Box<dyn Error>> {
    let text = mend()?;
    let verdict = audit(&text)?;
    eprintln!("audit: {verdict}");
    std::io::stdout().write_all(&text)?;
    match verdict {
        Verdict::Accepted(_) => Ok(()),
        Verdict::Damaged { .. } => Err(verdict.to_string().into()),
    }
}
