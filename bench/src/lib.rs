//! What the benchmark's programs share: inputs, runs of programs on them, and plots.

pub mod inputs;
pub mod networks;
pub mod plot;
pub mod recorder;
pub mod runs;
pub mod states;
