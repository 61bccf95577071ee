//! Separate routes.
//!
//! The library finds f+1 routes that share nothing but the receiver exactly where the reference
//! does. Which ones is left open, so the routes are held to the rules by themselves, each alone and
//! all together. Where there are fewer, the servers that the library shows are fewer than f+1, as
//! many as those of the reference's smallest set, which it finds by trying all of them, and without
//! them the reference finds no route at all. Buffers are lent that are too short, of the right
//! length and longer, and every byte of them is looked at.

mod loops;
mod rules;
mod tally;

pub use loops::{any_calls, every_call, refused_cards, strangers};
pub use tally::{Tally, LENGTHS};
