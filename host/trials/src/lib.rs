//! What the tests, the benchmark and the fuzz run share: a call of perq.h as a value that is made on the library and on
//! the reference, and the images, damages and random draws that it is made with.

#![deny(unsafe_code)]

pub mod batch_data;
pub mod big;
pub mod both;
pub mod call;
pub mod cuts;
pub mod damage;
pub mod draw;
#[allow(unsafe_code)]
pub mod guard;
pub mod images;
pub mod low_bits;
#[allow(unsafe_code)]
pub mod plain;
pub mod settings;
pub mod shapes;
pub mod sweep;
pub mod table;
pub mod tally;
pub mod trees;
pub mod worked;
pub mod worked_file;
pub mod worked_laying;
