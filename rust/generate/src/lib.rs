//! Deterministic generators of inputs for the agreement library.
//!
//! Everything is drawn from a [`Rng`], so one seed always gives the same cards,
//! plans and calls. Sound inputs and damaged ones are mixed on purpose: a
//! comparison of two implementations should meet every answer and every refusal.

#![forbid(unsafe_code)]

mod calls;
mod cards;
mod carriages;
mod damage;
mod draft;
mod makeshifts;
mod near;
mod plans;
mod rng;
mod routes;
mod spoilt;
mod states;
mod twins;
mod two_way;

pub use calls::{aimed_table, faulty, inputs, lent, table, AIMS};
pub use cards::{
    all_links, bare_card, card, card_of, complete_card, good_card, network_card, network_card_with,
    sparse_card,
};
pub use carriages::{carriages, Carriage};
pub use damage::{damaged_plan, Damage, DAMAGES};
pub use draft::places;
pub use makeshifts::Makeshift;
pub use near::{near_plans, Gap, NearPlan};
pub use plans::{broken_off_plan, plan, plan_like_bytes};
pub use rng::Rng;
pub use spoilt::spoilt_card;
pub use states::{arrived, own_input, server, state};
pub use twins::{with_twins, MOST_LINKS};
pub use two_way::{
    all_pairs, two_way_card_around, two_way_card_of, two_way_card_with, without_a_link,
};
