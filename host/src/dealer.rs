//! A dealer: honest inputs for demos and tests, in the place of oblivious transfer.
//!
//! It knows every box's secrets, and its generator is no cryptographic one. A deployment makes delta, seeds and masks from its own
//! randomness, and the share records by oblivious transfer with the other boxes.

use std::io::{self, Write};

use crate::{files, key_at, mac_at, record_head, record_len, Inputs, Plan, RECORD_HEAD};

/// SplitMix64 (Steele, Lea, Flood): small, fast, and the same everywhere. Not for secrets.
pub struct Generator(u64);

impl Generator {
    pub fn new(seed: u64) -> Self {
        Generator(seed)
    }

    pub fn word(&mut self) -> u64 {
        self.0 = self.0.wrapping_add(0x9e37_79b9_7f4a_7c15);
        let mut z = self.0;
        z = (z ^ z >> 30).wrapping_mul(0xbf58_476d_1ce4_e5b9);
        z = (z ^ z >> 27).wrapping_mul(0x94d0_49bb_1331_11eb);
        z ^ z >> 31
    }

    pub fn fill(&mut self, bytes: &mut [u8]) {
        for chunk in bytes.chunks_mut(8) {
            chunk.copy_from_slice(&self.word().to_le_bytes()[..chunk.len()]);
        }
    }

    fn array<const N: usize>(&mut self) -> [u8; N] {
        let mut bytes = [0; N];
        self.fill(&mut bytes);
        bytes
    }

    fn bytes(&mut self, len: usize) -> Vec<u8> {
        let mut bytes = vec![0; len];
        self.fill(&mut bytes);
        bytes
    }
}

/// Deals a session: to each box its inputs, in the format of files.rs. It writes as it goes and holds no more than a record in memory.
pub fn deal<W: Write>(plan: Plan, seed: u64, boxes: &mut [W]) -> io::Result<()> {
    let Plan { n, l } = plan;
    assert!(boxes.len() == n && plan.work_len() != 0, "no session has {n} boxes and {l} ANDs");
    // n and l enter too, so that no two sizes share their values.
    let mut g = Generator::new(seed ^ (n as u64) << 56 ^ (l as u64) << 32);
    let id = g.array();
    let deltas: Vec<[u8; 16]> = (0..n).map(|_| g.array()).collect();
    for (i, file) in boxes.iter_mut().enumerate() {
        files::Header { kind: files::Kind::Inputs, n, i, l, id }.write(file)?;
        file.write_all(&deltas[i])?;
        file.write_all(&g.array::<32>())?;
        file.write_all(&g.bytes(plan.pairs_len()))?;
        let mut masks = g.bytes(plan.masks_len());
        masks.iter_mut().for_each(|mask| *mask &= 1);
        file.write_all(&masks)?;
    }
    for count in [plan.bits_len() / record_len(n), l, l] {
        deal_shares(&mut g, &deltas, count, boxes)?;
    }
    Ok(())
}

/// Share records of random bits. For each box j and every other box k: k gets a random key of j; j gets that key as its MAC, plus k's delta
/// where j's bit is 1.
fn deal_shares<W: Write>(g: &mut Generator, deltas: &[[u8; 16]], count: usize, boxes: &mut [W]) -> io::Result<()> {
    let n = deltas.len();
    let mut records = vec![vec![0; record_len(n)]; n];
    for _ in 0..count {
        let bits = g.word();
        for j in 0..n {
            let bit = (bits >> j & 1) as u8;
            records[j][..RECORD_HEAD].copy_from_slice(&record_head(n, j, bit));
            for k in (0..n).filter(|k| *k != j) {
                let mut block: [u8; 16] = g.array();
                records[k][key_at(j)..][..16].copy_from_slice(&block);
                block.iter_mut().zip(deltas[k]).for_each(|(byte, delta)| *byte ^= delta * bit);
                records[j][mac_at(k)..][..16].copy_from_slice(&block);
            }
        }
        for (file, record) in boxes.iter_mut().zip(&records) {
            file.write_all(record)?;
        }
    }
    Ok(())
}

/// A deal in memory, for tests: the boxes' inputs.
pub fn deal_in_memory(plan: Plan, seed: u64) -> Vec<Inputs> {
    let mut boxes = vec![vec![]; plan.n];
    deal(plan, seed, &mut boxes).expect("memory takes all");
    boxes.iter().map(|bytes| files::read_inputs(&mut &bytes[..]).expect("as written").1).collect()
}

#[cfg(test)]
mod tests {
    use super::*;
    use crate::ENTRY;

    fn block(bytes: &[u8], at: usize) -> [u8; 16] {
        bytes[at..at + 16].try_into().unwrap()
    }

    /// Every dealt record says whose it is and keeps the MAC rule, own entries are zero, and both bits occur.
    #[test]
    fn dealt_shares_keep_the_mac_rule() {
        for n in [2, 3, 8] {
            let plan = Plan::new(n, 4);
            let boxes = deal_in_memory(plan, 7);
            type List = fn(&Inputs) -> &Vec<u8>;
            for list in [(|b| &b.bits) as List, |b| &b.alpha, |b| &b.beta] {
                let len = record_len(n);
                let mut ones = 0;
                for t in 0..list(&boxes[0]).len() / len {
                    for (j, holder) in boxes.iter().enumerate() {
                        let record = &list(holder)[t * len..][..len];
                        assert!(record[0] < 2);
                        ones += usize::from(record[0]);
                        assert_eq!(record[..RECORD_HEAD], record_head(n, j, record[0]));
                        assert_eq!(record[mac_at(j)..][..ENTRY], [0; ENTRY]);
                        for k in (0..n).filter(|k| *k != j) {
                            let key = block(&list(&boxes[k])[t * len..], key_at(j));
                            let mac: [u8; 16] = std::array::from_fn(|b| key[b] ^ (boxes[k].delta[b] * record[0]));
                            assert_eq!(block(record, mac_at(k)), mac);
                        }
                    }
                }
                assert!(ones > 0 && ones < n * list(&boxes[0]).len() / len);
            }
        }
    }

    #[test]
    fn a_seed_fixes_the_deal_and_another_changes_it() {
        let plan = Plan::new(3, 2);
        let deal = |seed| deal_in_memory(plan, seed).remove(1).bits.clone();
        assert!(deal(1) == deal(1));
        assert!(deal(1) != deal(2));
    }
}
