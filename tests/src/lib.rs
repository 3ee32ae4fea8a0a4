//! The tests of the file format: the model, the library behind its C interface, and what compares them.

pub mod answers;
pub mod chance;
pub mod damage;
pub mod door;
pub mod histories;
pub mod journal;
pub mod killer;
pub mod library;
pub mod lives;
pub mod make;
pub mod model;
pub mod run;
pub mod situations;
pub mod stories;
pub mod sweeps;
pub mod vectors;
pub mod watch;
