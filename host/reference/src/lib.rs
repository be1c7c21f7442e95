//! An independent implementation of the rules of document 01 (one partition on a lent volume image),
//! and of requests 1 (directory names), 2 (low address bits), 4 (big files) and 5 (names that can't be
//! typed) of document 02. It was written from these two documents, perq.h with the calls of request 1,
//! the decisions that docs/DIRECTORIES.md lists, and those of request 5's issue. Tests and benchmarks
//! compare another library with it.
//!
//! The calls of the headers are here under the same names without `perq_`. The other public modules
//! hold the parts they are made of, which tests may also use.
#![forbid(unsafe_code)]

pub mod address;
pub mod answer;
pub mod changing;
pub mod directory;
pub mod file;
pub mod image;
pub mod index;
pub mod inspect;
pub mod name;
pub mod plan;
pub mod random_tree;
pub mod reading;
pub mod record;
pub mod repair;
pub mod sample;
pub mod sound;
pub mod tree;
pub mod tree_sample;

mod allocation;
mod append;
mod name_sample;

pub use address::{fileid_to_lbn, lbn_to_fileid, lbn_to_lda, lbn_to_pda, lda_to_lbn, pda_to_lbn};
pub use answer::{Answer, ABSENT, DONE, REFUSED};
pub use changing::{create, describe, destroy, write};
pub use changing::{plan_create, plan_describe, plan_destroy, plan_write};
pub use directory::look_up;
pub use name::name;
pub use plan::Plan;
pub use reading::{description, extract, next_file, read, show, show_pair};
pub use repair::{plan_repair, repair};
pub use sound::check;
pub use tree::tree;
