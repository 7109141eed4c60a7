//! A bench in a few lines: reads the gains of a fitting file, checks the headroom, and runs a block.
//!
//!     cargo run --offline --example bench [FILE]

use tamqoret::signed::I1F15;
use tamqoret::{Filter, Verdict, fitting, headroom};

const FILE: &str = "# feedback path, left ear\n0.5\n-0.25\n0x0.1\n";

fn main() -> Result<(), Box<dyn std::error::Error>> {
    let file = match std::env::args().nth(1) {
        Some(path) => std::fs::read(path)?,
        None => FILE.as_bytes().to_vec(),
    };
    let taps = fitting(&file)?;
    for &tap in taps.iter() {
        println!("tap {}", I1F15.text(tap.into())?);
    }
    match headroom(&taps)? {
        Verdict::Never => println!("never clips"),
        Verdict::High(samples) => println!("clips high on {samples:?}"),
        Verdict::Low(samples) => println!("clips low on {samples:?}"),
    }
    let samples: Vec<i16> = (0..8).map(|k| if k < 4 { 32767 } else { -32768 }).collect();
    let (mut outputs, mut clips) = (vec![0; samples.len()], vec![0; samples.len()]);
    let clipped = Filter::new(&taps)?.run(&samples, &mut outputs, &mut clips)?;
    println!("in  {samples:?}\nout {outputs:?}, {clipped} clipped");
    Ok(())
}
