//! Runs the Rust of sine-fdn/polytune, compiled unchanged, on recorded values: whole sessions of
//! document 01 with every message written down, and single functions beside them.

mod aes;
mod ot_core;
mod record;
mod run;
mod session;

// The sources as oracle/build stages them.
#[allow(warnings)]
#[path = "../staged"]
mod staged {
    pub(crate) mod block;
    pub(crate) mod channel;
    pub(crate) mod crypto {
        pub(crate) mod aes_rng;
        pub(crate) use aes_rng::AesRng;
    }
    pub(crate) mod mpc {
        pub(crate) mod data_types;
        pub(crate) mod faand;
    }
    pub(crate) mod ot;
    pub(crate) mod utils;
}

// They name each other from the crate's root.
use staged::{block, channel, crypto, mpc, ot, utils};

pub mod by_hand;
pub mod damage;
pub mod expect;
pub mod labels;
pub mod rules;
pub mod shuffle;

pub use aes::{aes_block, aes_blocks, seed_of, tossed};
pub use mpc::faand::inside::{Sums, combine, r_sum};
pub use record::{
    BIT_AT, ENTRY, FILLER_AT, HEAD, N_AT, OWN_AT, Share, blank, head, kept, kept_len, key_at,
    labelled, mac_at, put_label, record_fault, record_len, records, shares,
};
pub use run::{End, Message, Outcome, cpu_time, honest, round_name, run};
pub use session::{Party, Session, SplitMix, bucket_size, draw, drawn_bit};
