//! The original Rust, asked on a flat image: a loader from image bytes to its `CompiledSchema`, and the way back from
//! its `Result` to the words of document 01. The loader is here because the registry's setters are crate-private.

mod answer;
mod cursor;
mod loader;
mod types;
mod visits;

// The four files, unchanged, and the stand-ins.
include!(concat!(env!("OUT_DIR"), "/modules.rs"));

pub use answer::Told;
pub use cursor::Read;
pub use loader::{load, Loaded};
pub use visits::Cost;
