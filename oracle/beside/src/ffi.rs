//! include/nuzsdike.h. Each slice goes over as pointer and count; the pointer of an empty slice is
//! dangling and not null, as the header asks. The borrows keep what is written apart from all else.

use oracle::Party;

// The kit's declarations of the same header; what the Rust has no counterpart for goes unused here.
#[allow(dead_code)]
#[path = "../../../host/src/ffi.rs"]
mod c;

use c::number;
pub use c::{BATCHES, SESSION, TOLD};

// Not bundled, so that what needs no session links without it.
#[link(name = "nuzsdike", kind = "static", modifiers = "-bundle")]
unsafe extern "C" {}

pub fn open(
    session: &mut [u32],
    n: usize,
    i: usize,
    counts: &[u32],
    p: &Party,
    work: &mut [u8],
    out: &mut [u8],
) -> u64 {
    // SAFETY: pointers and counts are those of slices that outlive the call.
    unsafe {
        c::nuzsdike_open(
            session.as_mut_ptr(),
            session.len(),
            number(n),
            number(i),
            counts.as_ptr(),
            counts.len(),
            p.delta.as_ptr(),
            p.delta.len(),
            p.joint_seed.as_ptr(),
            p.joint_seed.len(),
            p.pair_seeds.as_ptr(),
            p.pair_seeds.len(),
            p.bits.as_ptr(),
            p.bits.len(),
            p.alpha.as_ptr(),
            p.alpha.len(),
            p.beta.as_ptr(),
            p.beta.len(),
            p.masks.as_ptr(),
            p.masks.len(),
            work.as_mut_ptr(),
            work.len(),
            out.as_mut_ptr(),
            out.len(),
        )
    }
}

#[allow(clippy::too_many_arguments)]
pub fn round(
    session: &mut [u32],
    round: usize,
    incoming: &[u8],
    starts: &[usize],
    lens: &[usize],
    missing: &[u8],
    r: &[u8],
    work: &mut [u8],
    out: &mut [u8],
    told: &mut [u32],
) -> u64 {
    // SAFETY: as above.
    unsafe {
        c::nuzsdike_round(
            session.as_mut_ptr(),
            session.len(),
            number(round),
            incoming.as_ptr(),
            incoming.len(),
            starts.as_ptr(),
            starts.len(),
            lens.as_ptr(),
            lens.len(),
            missing.as_ptr(),
            missing.len(),
            r.as_ptr(),
            r.len(),
            work.as_mut_ptr(),
            work.len(),
            out.as_mut_ptr(),
            out.len(),
            told.as_mut_ptr(),
            told.len(),
        )
    }
}

pub fn combine(n: usize, i: usize, count: usize, triples: &[u8], d: &[u8], out: &mut [u8]) -> u64 {
    // SAFETY: as above.
    unsafe {
        c::nuzsdike_combine(
            number(n),
            number(i),
            number(count),
            triples.as_ptr(),
            triples.len(),
            d.as_ptr(),
            d.len(),
            out.as_mut_ptr(),
            out.len(),
        )
    }
}

pub fn sum(counts: &[u32]) -> u64 {
    // SAFETY: as above.
    unsafe { c::nuzsdike_sum(counts.as_ptr(), counts.len()) }
}

pub fn due(session: &[u32]) -> usize {
    // SAFETY: as above.
    unsafe { c::nuzsdike_due(session.as_ptr(), session.len()) as usize }
}

macro_rules! numbers {
    ($($name:ident = $of:ident($($arg:ident),*);)*) => {
        $(pub fn $name($($arg: usize),*) -> usize {
            // SAFETY: numbers alone.
            unsafe { c::$of($(number($arg)),*) as usize }
        })*
    };
}

numbers! {
    work_len = nuzsdike_work_len(n, l);
    out_len = nuzsdike_out_len(n, l, round);
    message_len = nuzsdike_message_len(n, l, round);
    bits_len = nuzsdike_bits_len(n, l);
    shares_len = nuzsdike_shares_len(n, l);
    masks_len = nuzsdike_masks_len(n, l);
    pairs_len = nuzsdike_pairs_len(n);
    r_len = nuzsdike_r_len(n, l, round);
    next_round = nuzsdike_next_round(n, round);
    record_bytes = nuzsdike_record_len(n);
    bucket_size = nuzsdike_bucket_size(l);
    joint_seed_at = nuzsdike_joint_seed_at(n, l);
    pairwise_seeds_at = nuzsdike_pairwise_seeds_at(n, l);
}
