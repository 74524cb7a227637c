//! A second implementation of document 01, with Items 1, 2, 4 and 5 of document 02, and what is needed
//! to compare the library with it.

#![deny(unsafe_code)]

pub mod bends;
pub mod c_program;
pub mod class;
pub mod compare;
pub mod curve;
pub mod damage;
pub mod drawing;
pub mod expect;
pub mod fast;
pub mod foreign;
pub mod lent;
pub mod lister;
pub mod machine;
pub mod meaning;
pub mod pages;
#[allow(unsafe_code)]
pub mod probe;
pub mod prune;
pub mod query;
pub mod quotations;
pub mod random;
pub mod reach;
pub mod readings;
pub mod record;
pub mod sample;
pub mod samples;
pub mod scenes;
pub mod stream;
pub mod tally;
pub mod tree;
pub mod tree_damage;
pub mod zones;
