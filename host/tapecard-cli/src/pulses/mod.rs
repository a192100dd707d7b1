//! The pulse drive as a person follows it.

pub mod exchange;
pub mod reports;
pub mod state;
