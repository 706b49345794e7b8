//! An independent planner in plain Rust, and what compares it with ours.
//!
//! The first modules are the whole planner, from the task text to the printed plan, written from the
//! rules alone: [`reader`], [`task`], [`queue`], [`estimator`], [`search`] and [`plan`]. The others make
//! inputs ([`random`], [`generate`], [`damage`]), run a program ([`program`]) or call our library
//! ([`ours`]), and compare.

pub mod estimator;
pub mod fault;
pub mod plan;
pub mod queue;
pub mod reader;
pub mod search;
pub mod task;

pub mod cases;
pub mod damage;
pub mod generate;
pub mod inputs;
pub mod options;
pub mod ours;
pub mod program;
pub mod random;
