//! Where the models of a comparison come from.

pub mod busy;
pub mod chains;
pub mod damage;
pub mod limits;
pub mod nests;
pub mod readings;
pub mod tails;
