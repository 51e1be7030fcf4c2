//! A separately written judge, outline check and sheet writer for usage policies.

pub mod borders;
pub mod counterexample;
pub mod damage;
pub mod desk;
pub mod desk_bytes;
pub mod desk_sessions;
pub mod expression;
pub mod generate;
pub mod grammar;
pub mod judge;
pub mod least;
pub mod outline;
pub mod pair_sets;
pub mod policy;
pub mod positions;
pub mod program;
pub mod pushdown;
pub mod rng;
pub mod run;
pub mod search;
pub mod sheet;
pub mod state;
pub mod summary;
pub mod system;
pub mod writer;
