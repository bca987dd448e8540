//! A second scheduler for the release farm, made from document 01 and requests (i)
//! to (vii) of document 02 alone.
//!
//! The modules stand on one another in this order: the share arithmetic, the
//! jobs and nodes, the two walks, the farm with its calls, the program.

pub mod days;
pub mod exhaustive;
pub mod farm;
pub mod job;
pub mod limits;
pub mod long_days;
pub mod node;
pub mod program;
pub mod quick;
pub mod random;
pub mod refusal;
pub mod share;
pub mod spelling;
pub mod text;
