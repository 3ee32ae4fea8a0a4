//! An independent model of the rules in docs/RULES.md, as literal as it can be written.
//!
//! Each definition names the rule that it takes over. Where a rule can be written down directly it is, even if a faster
//! way exists: people read this beside the rules.

pub mod calls;
pub mod file;
pub mod names;
pub mod trie;
