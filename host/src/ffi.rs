//! include/nuzsdike.h, word for word. Only lib.rs uses it, whose safe wrapper says what each call needs, tests/raw and oracle/beside.

// The library is compiled for x86-64: size_t is u64 there, and usize.
#[cfg(not(target_pointer_width = "64"))]
compile_error!("libnuzsdike.a is for 64-bit machines");

pub const BATCHES: usize = 16;
pub const SESSION: usize = 20;
pub const TOLD: usize = 32;
pub const R_SEED: usize = 16;

/// A number for the interface. What 32 bits do not hold is above every limit, and so is the largest that they hold.
pub fn number(x: usize) -> u32 {
    u32::try_from(x).unwrap_or(u32::MAX)
}

unsafe extern "C" {
    pub fn nuzsdike_open(
        session: *mut u32,
        session_len: usize,
        n: u32,
        i: u32,
        counts: *const u32,
        counts_len: usize,
        delta: *const u8,
        delta_len: usize,
        seed: *const u8,
        seed_len: usize,
        pairs: *const u8,
        pairs_len: usize,
        bits: *const u8,
        bits_len: usize,
        alpha: *const u8,
        alpha_len: usize,
        beta: *const u8,
        beta_len: usize,
        masks: *const u8,
        masks_len: usize,
        work: *mut u8,
        work_len: usize,
        out: *mut u8,
        out_len: usize,
    ) -> u64;

    pub fn nuzsdike_round(
        session: *mut u32,
        session_len: usize,
        round: u32,
        incoming: *const u8,
        incoming_len: usize,
        starts: *const usize,
        starts_len: usize,
        lens: *const usize,
        lens_len: usize,
        missing: *const u8,
        missing_len: usize,
        r: *const u8,
        r_len: usize,
        work: *mut u8,
        work_len: usize,
        out: *mut u8,
        out_len: usize,
        told: *mut u32,
        told_len: usize,
    ) -> u64;

    pub fn nuzsdike_combine(
        n: u32,
        i: u32,
        count: u32,
        triples: *const u8,
        triples_len: usize,
        d: *const u8,
        d_len: usize,
        out: *mut u8,
        out_len: usize,
    ) -> u64;

    pub fn nuzsdike_sum(counts: *const u32, counts_len: usize) -> u64;
    pub fn nuzsdike_work_len(n: u32, l: u32) -> usize;
    pub fn nuzsdike_out_len(n: u32, l: u32, round: u32) -> usize;
    pub fn nuzsdike_message_len(n: u32, l: u32, round: u32) -> usize;
    pub fn nuzsdike_bits_len(n: u32, l: u32) -> usize;
    pub fn nuzsdike_shares_len(n: u32, l: u32) -> usize;
    pub fn nuzsdike_masks_len(n: u32, l: u32) -> usize;
    pub fn nuzsdike_pairs_len(n: u32) -> usize;
    pub fn nuzsdike_r_len(n: u32, l: u32, round: u32) -> usize;
    pub fn nuzsdike_record_len(n: u32) -> usize;
    pub fn nuzsdike_bucket_size(l: u32) -> u32;
    pub fn nuzsdike_joint_seed_at(n: u32, l: u32) -> usize;
    pub fn nuzsdike_pairwise_seeds_at(n: u32, l: u32) -> usize;
    pub fn nuzsdike_next_round(n: u32, round: u32) -> u32;
    pub fn nuzsdike_due(session: *const u32, session_len: usize) -> u32;
    pub fn nuzsdike_round_name(round: u32, k: usize) -> u8;
}
