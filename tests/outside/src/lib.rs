//! A plain machine that shares nothing with the engine, and what the engine is compared with.

pub mod cases;
pub mod comparison;
#[cfg(feature = "engine")]
pub mod engine;
pub mod examples;
pub mod gen;
pub mod image;
pub mod machine;
pub mod order;
pub mod page;
pub mod recording;
pub mod reduction;
pub mod resume;
pub mod run;
pub mod stores;
pub mod sums;
pub mod text;
