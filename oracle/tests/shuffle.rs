//! The permutation that a joint seed draws (02, order 6): by made-up words, beside a ChaCha20 and a shuffle of the kit's
//! tests, and in sessions of the Rust.

use oracle::{
    BIT_AT, Session, SplitMix, damage,
    expect::{Expected, expect},
    record_len,
    rules::apply,
    run,
    shuffle::{drawn, first_high, first_passing, passed_over},
};
use rand::seq::shuffle;

// Its own test holds it to RFC 8439.
#[rustfmt::skip]
#[path = "../../host/tests/drawn/mod.rs"]
mod kit;

/// What these words make of 0 to count − 1, how many were passed over, and how many are left.
fn by(count: usize, words: &[u32]) -> (Vec<u32>, usize, usize) {
    let mut list: Vec<u32> = (0..count as u32).collect();
    let mut words = words.iter().copied();
    let passed = shuffle(&mut list, words.by_ref());
    (list, passed, words.len())
}

/// The highest word. With 3 or 5 entries to choose from it alone is passed over, and it is 0 modulo both.
const HIGH: u32 = u32::MAX;

#[test]
fn made_up_words_by_hand() {
    assert_eq!(by(0, &[7]), (vec![], 0, 1));
    assert_eq!(by(1, &[7]), (vec![0], 0, 1));
    assert_eq!(by(2, &[4]), (vec![1, 0], 0, 0));
    assert_eq!(by(2, &[HIGH]), (vec![0, 1], 0, 0));
    // index 2 takes entry 0, then index 1 stays
    assert_eq!(by(3, &[0, 1]), (vec![2, 1, 0], 0, 0));
    // from the highest index down: 3 and 1, 2 and 0
    assert_eq!(by(4, &[5, 9, 1]), (vec![2, 3, 0, 1], 0, 0));
    // 2^32 is a multiple of 4 and of 2, and of 3 only what is one less: HIGH is passed over there alone
    assert_eq!(by(4, &[HIGH, HIGH, 0, HIGH]), (vec![2, 1, 0, 3], 1, 0));
    assert_eq!(by(3, &[HIGH - 1, 1]), (vec![0, 1, 2], 0, 0));
    // of 7 the largest multiple is 2^32 - 4
    let identity: Vec<u32> = (0..7).collect();
    let stay = [5, 4, 3, 2, 1];
    for (word, passed) in [(HIGH - 4, 0), (HIGH - 3, 1), (HIGH, 1)] {
        let words = [&vec![word][..], &vec![6; passed], &stay].concat();
        assert_eq!(by(7, &words), (identity.clone(), passed, 0));
    }
}

/// After 64 words at one index the 65th counts, whatever it is; the next index has 64 of its own.
#[test]
fn the_65th_word_is_used_as_it_is() {
    for (high, passed) in [(63, 63), (64, 64)] {
        let words = [&vec![HIGH; high][..], &[1, 1]].concat();
        assert_eq!(by(3, &words), (vec![0, 2, 1], passed, 0));
    }
    let words = [&[HIGH; 65][..], &[1]].concat();
    assert_eq!(by(3, &words), (vec![2, 1, 0], 64, 0));
    // of 5 entries the first is taken after 64 words, of 4 the last, of 3 the first after 64 more, of 2 the last
    let words = [&[HIGH; 65][..], &[HIGH], &[HIGH; 65], &[HIGH]].concat();
    assert_eq!(by(5, &words), (vec![2, 1, 4, 3, 0], 128, 0));
    // and without end: 64 with 7, 6, 5 and 3 entries to choose from
    let (list, passed, left) = by(7, &[HIGH; 1000]);
    assert_eq!((passed, left), (4 * 64, 1000 - 6 - 4 * 64));
    assert_eq!(list, kit::shuffled(7, &mut std::iter::repeat(HIGH)));
}

/// Another's cipher and another's shuffle draw the same.
#[test]
fn the_kit_draws_the_same() {
    let mut g = SplitMix(1);
    let mut seed = || -> [u8; 32] { g.bytes(32).try_into().unwrap() };
    for count in (0..400).chain([1020, 1025, 4095, 4096, 4097, 65_537, 900_000]) {
        let seed = seed();
        let list = drawn(&seed, count);
        assert!(list == kit::drawn(&seed, count), "{count}");
        let mut sorted = list.clone();
        sorted.sort();
        assert!((sorted.iter().enumerate()).all(|(t, entry)| t == *entry as usize));
    }
    for bit in 0..256 {
        let mut key = [0; 32];
        key[bit / 8] = 1 << (bit % 8);
        assert!(drawn(&key, 130) == kit::drawn(&key, 130), "bit {bit}");
    }
    // words that are mostly passed over
    let high = || (1..).map(|k: u32| if k % 7 == 0 { k } else { HIGH });
    for count in [3, 5, 7, 100, 1000] {
        let mut list: Vec<u32> = (0..count as u32).collect();
        assert!(shuffle(&mut list, high()) > 0);
        assert_eq!(list, kit::shuffled(count, &mut high()));
    }
}

/// Joint seeds with which a word is passed over, at the sizes of oracle/compare.
#[test]
fn words_are_passed_over() {
    for count in [
        1020, 1025, 2045, 2050, 4095, 4100, 8190, 8195, 16_380, 16_384, 16_388,
    ] {
        let (k, seed) = first_passing(count);
        println!(
            "{count}: seed {k}, {} passed over",
            passed_over(&seed, count)
        );
        assert!(drawn(&seed, count) == kit::drawn(&seed, count));
    }
    // 2^32 is a multiple of 16,384: none of the highest words is passed over, as it would be of one entry less
    let (k, seed) = first_high(16_384);
    println!("16384: seed {k}, a high word first");
    assert!(drawn(&seed, 16_384) == kit::drawn(&seed, 16_384));
    let words = |first: u32| std::iter::once(first).chain(std::iter::repeat(0));
    for (count, passed) in [(16_383, 1), (16_384, 0), (16_385, 1)] {
        let mut list: Vec<u32> = (0..count).collect();
        assert_eq!(shuffle(&mut list, words(HIGH)), passed);
    }
    // some 47 in the largest session
    let many = passed_over(&[1; 32], 900_000);
    assert!((20..90).contains(&many), "{many}");
}

/// A party that tells another seed than its own tosses another joint seed than the others, and each draws from its own:
/// their `dvalue` is of the records where that permutation has them, and MACs of others do not fit.
#[test]
fn parties_draw_from_their_own_toss() {
    let mut g = SplitMix(2);
    for turn in 0..40 {
        let (n, l) = (2 + turn % 4, 2 + turn % 3);
        let s = Session::generate(n, l, turn as u64);
        let rules = damage::other_seed(&mut g, &s);
        let (from, lb) = (rules[0].from.unwrap(), l * s.b());
        let mut tamper = |round, from, to, m| apply(&rules, round, from, to, m);
        let o = run(&s, &mut tamper);
        let seeds: Vec<[u8; 32]> = o.joint_seeds.iter().map(|seed| seed.unwrap()).collect();
        for i in 0..n {
            assert_eq!(seeds[i] == s.joint_seed(), i == from);
            let permutation = drawn(&seeds[i], lb);
            let y = |t: usize| {
                let record = (lb + permutation[t] as usize) * record_len(n);
                s.parties[i].bits[record + BIT_AT]
            };
            let m = &o.message(21, i, (i + 1) % n).unwrap().sent;
            for bucket in 0..l {
                let at = 8 + bucket * (16 + 17 * 4) + 8;
                for t in 1..5 {
                    assert_eq!(m[at + t - 1], y(5 * bucket) ^ y(5 * bucket + t));
                }
            }
        }
        let e = expect(&s, &mut tamper);
        assert!(e.differences.is_empty());
        for (i, end) in e.ends.iter().enumerate() {
            let all = (1 << n) - 1;
            let parties = if i == from {
                all ^ 1 << from
            } else {
                1 << from
            };
            let due = Expected::Refused {
                number: 11,
                round: 21,
                parties,
            };
            assert_eq!(*end, due, "n {n} l {l}, party {i}");
        }
    }
}
