//! Drives an engine through its host entries and compares every word with the reference.

pub mod campaigns;
pub mod check;
pub mod engine;
pub mod entries;
pub mod forest;
pub mod linked;
pub mod malformed;
pub mod maps;
pub mod mock;
pub mod padding;
pub mod plain;
pub mod random;
pub mod sheets;
