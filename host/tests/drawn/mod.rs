//! The permutation that a joint seed draws (02, order 6), by a ChaCha20 of the tests' own.

/// RFC 8439's block function for a nonce of zeros: 16 words.
fn block(key: &[u8; 32], counter: u32) -> [u32; 16] {
    let bytes = [&b"expand 32-byte k"[..], key, &counter.to_le_bytes(), &[0; 12]].concat();
    let start: [u32; 16] = std::array::from_fn(|k| u32::from_le_bytes(bytes[4 * k..][..4].try_into().unwrap()));
    let mut state = start;
    for _ in 0..10 {
        // four columns, then four diagonals
        for step in [0, 1] {
            for a in 0..4 {
                let [b, c, d] = [1, 2, 3].map(|row| 4 * row + (a + row * step) % 4);
                for (to, from, mixed, turn) in [(a, b, d, 16), (c, d, b, 12), (a, b, d, 8), (c, d, b, 7)] {
                    state[to] = state[to].wrapping_add(state[from]);
                    state[mixed] = (state[mixed] ^ state[to]).rotate_left(turn);
                }
            }
        }
    }
    std::array::from_fn(|k| state[k].wrapping_add(start[k]))
}

/// How many words are passed over for one index at most.
const MOST: usize = 64;

/// The numbers from 0 to count − 1, shuffled by these words.
pub fn shuffled(count: usize, words: &mut impl Iterator<Item = u32>) -> Vec<u32> {
    let mut list: Vec<u32> = (0..count as u32).collect();
    for t in (1..count).rev() {
        let places = t as u64 + 1;
        // below it each remainder has as many words
        let bound = (1 << 32) - (1 << 32) % places;
        let mut word = u64::from(words.next().unwrap());
        for _ in 0..MOST {
            if word < bound {
                break;
            }
            word = words.next().unwrap().into();
        }
        list.swap(t, (word % places) as usize);
    }
    list
}

/// The permutation of 0 to count − 1 that a joint seed draws.
pub fn drawn(joint_seed: &[u8; 32], count: usize) -> Vec<u32> {
    shuffled(count, &mut (0..).flat_map(|counter| block(joint_seed, counter)))
}

/// RFC 8439, appendix A.1, the blocks for a nonce of zeros.
const BLOCKS: [&str; 4] = [
    "76b8e0ada0f13d90405d6ae55386bd28bdd219b8a08ded1aa836efcc8b770dc7da41597c5157488d7724e03fb8d84a376a43b8f41518a11cc387b669b2ee6586",
    "9f07e7be5551387a98ba977c732d080dcb0f29a048e3656912c6533e32ee7aed29b721769ce64e43d57133b074d839d531ed1f28510afb45ace10a1f4b794d6f",
    "3aeb5224ecf849929b9d828db1ced4dd832025e8018b8160b82284f3c949aa5a8eca00bbb4a73bdad192b5c42f73f2fd4e273644c8b36125a64addeb006c13a0",
    "72d54dfbf12ec44b362692df94137f328fea8da73990265ec1bbbea1ae9af0ca13b25aa26cb4a648cb9b9d1be65b2c0924a66c54d545ec1b7374f4872e99f096",
];

#[test]
fn blocks_are_those_of_rfc_8439() {
    // the counter, and what byte of the key is not zero
    for ((counter, at, byte), due) in [(0, 0, 0), (1, 0, 0), (1, 31, 1), (2, 1, 255)].into_iter().zip(BLOCKS) {
        let mut key = [0; 32];
        key[at] = byte;
        let bytes = block(&key, counter).map(u32::to_le_bytes).concat();
        assert_eq!(bytes.iter().map(|byte| format!("{byte:02x}")).collect::<String>(), due);
    }
}
