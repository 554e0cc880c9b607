//! What a call costs where it is made in place, and where the caller's stack is too small and it gets a thread.

use std::error::Error;
use std::fs;
use std::thread;
use std::time::Instant;

use fruscalitu::{project_impl, TypeId};

const SAMPLE: &str = concat!(env!("CARGO_MANIFEST_DIR"), "/../../samples/getgm.image");
const CALLS: u32 = 20_000;

/// Microseconds a call, the mean of many.
fn cost(image: &[u8]) -> f64 {
    let start = Instant::now();
    for _ in 0..CALLS {
        assert!(project_impl(image, TypeId(2)).is_ok());
    }
    start.elapsed().as_secs_f64() * 1e6 / f64::from(CALLS)
}

fn main() -> Result<(), Box<dyn Error>> {
    let image = fs::read(SAMPLE)?;
    println!("in place: {:.1} microseconds a call", cost(&image));
    let small = thread::Builder::new().stack_size(64 << 10).spawn(move || cost(&image))?;
    println!("by a thread: {:.1} microseconds a call", small.join().map_err(|_| "the thread ended early")?);
    Ok(())
}
