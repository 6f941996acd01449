//! The second implementation of paper 01 and of the requests that have landed: written from the papers,
//! clear before fast.
//!
//! The modules follow the paper's sections, from the bottom: its numbers (`layout`), integers and
//! words (`integer`, `resp`), the store (`store`, `time`, `versions`), commands (`parse`, `commands`,
//! `reply`), then the feeder, two stores side by side (`compare`), and the search that counts the bytes
//! it compares (`search`).

#![forbid(unsafe_code)]

pub mod commands;
pub mod compare;
pub mod feeder;
pub mod integer;
pub mod layout;
pub mod parse;
pub mod reply;
pub mod resp;
pub mod search;
pub mod store;
pub mod time;
pub mod versions;

pub use commands::{Done, execute};
pub use compare::{Compared, NewerPlace, Which, compare, newer, newer_part};
pub use feeder::{Fed, Feeder, feed};
pub use search::{Searched, search};
pub use store::store_check;
