//! Input for the comparison, good and damaged, made at random.

pub mod blocks;
pub mod builder;
pub mod damage;
pub mod listing;
pub mod lots;
pub mod names;
pub mod rates;
pub mod rows;
pub mod sheets;
pub mod tallies;
