//! Blocks that the Rust's `AesRng` draws from seeds, beside AES of our own: the kit's, byte by byte.

use oracle::{Session, SplitMix, aes_block, aes_blocks, honest, run, seed_of, tossed};

// The kit's; its own tests hold it to FIPS 197.
#[allow(dead_code)]
#[rustfmt::skip]
#[path = "../../host/src/aes.rs"]
mod kit;

/// On both sides of 2^8, 2^16 and 2^32, and the ends of the counter.
const NUMBERS: [u128; 22] = [
    0,
    1,
    2,
    254,
    255,
    256,
    257,
    65_534,
    65_535,
    65_536,
    65_537,
    35_039,
    35_040,
    2_531_399,
    (1 << 32) - 2,
    (1 << 32) - 1,
    1 << 32,
    (1 << 32) + 1,
    (1 << 64) - 1,
    1 << 64,
    1 << 127,
    // one more would be past the last: the counter goes on after a Block
    u128::MAX - 1,
];

#[test]
fn a_thousand_seeds() {
    let mut g = SplitMix(1);
    let drawn = (0..1000).map(|_| g.bytes(16).try_into().unwrap());
    for seed in drawn.chain((0..1000).map(seed_of)) {
        let key = kit::Aes128::new(&seed);
        for c in NUMBERS {
            assert_eq!(
                aes_block(seed, c),
                key.block(c),
                "seed {seed:x?}, Block {c}"
            );
        }
    }
}

/// One after another, past 256 and past 65,536: what is drawn so is what `aes_block` gives, and what the kit draws.
#[test]
fn one_after_another() {
    for (k, count) in [(0, 70_000), (1, 300), (2, 300), (3, 300), (999, 70_000)] {
        let seed = seed_of(k);
        let blocks = aes_blocks(seed, count);
        assert!(blocks.concat() == kit::draw(&seed, 16 * count));
        for c in NUMBERS.into_iter().filter(|c| *c < count as u128) {
            assert_eq!(blocks[c as usize], aes_block(seed, c));
        }
    }
}

/// Seeds of `oracle/aes-blocks`: no two alike.
#[test]
fn the_seeds_differ() {
    let mut seeds: Vec<[u8; 16]> = (0..65_536).map(seed_of).collect();
    assert_eq!(
        seeds[1000],
        [
            253, 189, 87, 203, 25, 65, 67, 31, 213, 101, 207, 19, 49, 41, 251, 167
        ]
    );
    seeds.sort();
    seeds.dedup();
    assert_eq!(seeds.len(), 65_536);
}

/// r of a session drawn by the Rust itself, from what its joint toss gives, is what is drawn from that seed outside.
#[test]
fn the_rust_draws_what_a_seed_gives() {
    for (n, l) in [(2, 1), (3, 5), (8, 2)] {
        let mut s = Session::generate(n, l, 5);
        let lent = run(&s, &mut honest);
        assert_eq!(s.tossed_seed(), tossed(lent.joint_seeds[0].unwrap()));
        s.draw_r(s.tossed_seed());
        let by_itself = run(&s, &mut honest);
        s.r_seed = None;
        let fed = run(&s, &mut honest);
        assert!(by_itself.messages == fed.messages && by_itself.ends == fed.ends);
        assert!(lent.messages != fed.messages);
        assert!(fed.results().is_some());
    }
}
