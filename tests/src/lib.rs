//! A second implementation of document 01 and requests #101 to #104 and #106 to #109 of document 02, written from the
//! documents alone, and what the tests share.

pub mod arrivals;
pub mod calculus;
pub mod compare;
pub mod damage;
pub mod defaults;
pub mod drops;
pub mod form;
pub mod hops;
pub mod join;
pub mod lines;
pub mod listing;
pub mod lists;
pub mod network;
pub mod networks;
pub mod packets;
pub mod program;
pub mod random;
pub mod recorder;
pub mod script;
pub mod simulator;
pub mod small;
pub mod source;
pub mod topology;
