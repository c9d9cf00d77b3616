//! The inputs of one session: the file format, a check of their shape, and a generator.

use crate::{
    aes::{aes_blocks, tossed},
    mpc::faand,
    record::{BIT_AT, Share, blank, key_at, mac_at, put_label, record_fault, record_len},
};

/// What opening takes for one party, as document 01 lays it out.
#[derive(Clone, Debug, Default, PartialEq, Eq)]
pub struct Party {
    pub delta: [u8; 16],
    pub joint_seed: [u8; 32],
    /// 32 bytes for each party; the own ones are not used.
    pub pair_seeds: Vec<u8>,
    /// 3·l·b + 160 share records.
    pub bits: Vec<u8>,
    pub alpha: Vec<u8>,
    pub beta: Vec<u8>,
    /// A byte for each party and position, party by party; the own ones are not used.
    pub masks: Vec<u8>,
}

impl Party {
    /// The lists of share records, in the order in which opening looks at them.
    pub fn lists(&self) -> [&[u8]; 3] {
        [&self.bits, &self.alpha, &self.beta]
    }

    pub fn lists_mut(&mut self) -> [&mut Vec<u8>; 3] {
        [&mut self.bits, &mut self.alpha, &mut self.beta]
    }

    /// What opening finds in these bytes if party i of n is lent them, their lengths being right: record by record,
    /// list by list, then in the masks for the others.
    pub fn fault(&self, n: usize, i: usize) -> Option<u8> {
        let lists = self.lists().into_iter();
        let mut records = lists.flat_map(|list| list.chunks_exact(record_len(n)));
        let found = records.find_map(|record| record_fault(record, n, i));
        let lb = self.masks.len() / n;
        let mut masks = (self.masks.iter().enumerate()).filter(|(at, _)| at / lb != i);
        found.or_else(|| masks.any(|(_, mask)| *mask > 1).then_some(1))
    }
}

#[derive(Clone, Debug, Default, PartialEq, Eq)]
pub struct Session {
    pub n: usize,
    pub l: usize,
    /// The generator's seed, 0 for other inputs.
    pub seed: u64,
    pub parties: Vec<Party>,
    /// 120 strings of Blocks, the same for all.
    pub r: Vec<u8>,
    /// The seed that r was drawn from, if it was; no part of the session's file.
    pub r_seed: Option<[u8; 16]>,
}

const MAGIC: &[u8; 8] = b"NZSESS03";

pub fn bucket_size(l: usize) -> usize {
    faand::bucket_size(l)
}

impl Session {
    pub fn b(&self) -> usize {
        bucket_size(self.l)
    }

    /// Share records of bits.
    pub fn bits_count(&self) -> usize {
        3 * self.l * self.b() + 160
    }

    /// Bytes of r.
    pub fn r_len(&self) -> usize {
        120 * self.bits_count().div_ceil(128) * 16
    }

    /// Takes for r what the Rust's `AesRng` draws from a seed.
    pub fn draw_r(&mut self, seed: [u8; 16]) {
        self.r = aes_blocks(seed, self.r_len() / 16).concat();
        self.r_seed = Some(seed);
    }

    /// What the joint toss gives where nobody tells another seed than its own: the XOR of all of them.
    pub fn joint_seed(&self) -> [u8; 32] {
        let mut joint = [0; 32];
        for p in &self.parties {
            joint
                .iter_mut()
                .zip(p.joint_seed)
                .for_each(|(sum, byte)| *sum ^= byte);
        }
        joint
    }

    /// Gives party 0 the seed with which the joint toss gives this.
    pub fn toss(&mut self, joint_seed: [u8; 32]) {
        let off = self.joint_seed();
        let own = &mut self.parties[0].joint_seed;
        (0..32).for_each(|k| own[k] ^= off[k] ^ joint_seed[k]);
    }

    /// The seed that the Rust itself takes for `AesRng` once the joint toss is over.
    pub fn tossed_seed(&self) -> [u8; 16] {
        tossed(self.joint_seed())
    }

    /// Whether the Rust can be given these inputs. What it has no way to hold (a bit of 2, a list
    /// of another length) is refused here; a wrong MAC is not, nor a label, which it never sees.
    pub fn check(&self) -> Result<(), String> {
        let (n, l, lb) = (self.n, self.l, self.l * self.b());
        let record = record_len(n);
        let must = |ok: bool, what: &str| if ok { Ok(()) } else { Err(what.to_string()) };
        must((2..=8).contains(&n), "n")?;
        must(self.parties.len() == n, "number of parties")?;
        for p in &self.parties {
            must(p.pair_seeds.len() == 32 * n, "length of pair seeds")?;
            must(p.bits.len() == self.bits_count() * record, "length of bits")?;
            must(p.alpha.len() == l * record, "length of alpha")?;
            must(p.beta.len() == l * record, "length of beta")?;
            must(p.masks.len() == n * lb, "length of masks")?;
            for list in p.lists() {
                let mut records = list.chunks_exact(record);
                must(records.all(|r| r[BIT_AT] < 2), "a share's bit")?;
            }
            must(p.masks.iter().all(|m| *m < 2), "a mask")?;
        }
        must(self.r.len() == self.r_len(), "length of r")
    }

    /// Whether lists of shares, one for each party, meet the MAC rule: j's MAC for k is k's key for
    /// j, plus k's delta where j's bit is 1.
    pub fn macs_hold(&self, lists: &[impl AsRef<[Share]>]) -> bool {
        let pairs = (0..self.n).flat_map(|j| (0..self.n).map(move |k| (j, k)));
        pairs.filter(|(j, k)| j != k).all(|(j, k)| {
            let mut shares = lists[j].as_ref().iter().zip(lists[k].as_ref());
            shares.all(|(mine, theirs)| {
                let (mac, key) = (mine.mac(k), theirs.key(j));
                let delta = &self.parties[k].delta;
                (0..16).all(|t| mac[t] == key[t] ^ (mine.bit() * delta[t]))
            })
        })
    }

    /// Whether the bits of results are shares of (XOR of alphas) AND (XOR of betas).
    pub fn and_holds(&self, results: &[impl AsRef<[Share]>]) -> bool {
        (0..self.l).all(|j| {
            let at = j * record_len(self.n) + BIT_AT;
            let sum = |bit: &dyn Fn(usize) -> u8| (0..self.n).fold(0, |sum, i| sum ^ bit(i));
            let alpha = sum(&|i| self.parties[i].alpha[at]);
            let beta = sum(&|i| self.parties[i].beta[at]);
            sum(&|i| results[i].as_ref()[j].bit()) == alpha & beta
        })
    }

    pub fn to_bytes(&self) -> Vec<u8> {
        let mut out = MAGIC.to_vec();
        for word in [self.n, self.l, self.b(), 0] {
            out.extend((word as u32).to_le_bytes());
        }
        out.extend(self.seed.to_le_bytes());
        for p in &self.parties {
            out.extend(p.delta);
            out.extend(p.joint_seed);
            for list in [&p.pair_seeds, &p.bits, &p.alpha, &p.beta, &p.masks] {
                out.extend(list);
            }
        }
        out.extend(&self.r);
        out
    }

    pub fn from_bytes(bytes: &[u8]) -> Result<Self, String> {
        struct Reader<'a>(&'a [u8]);
        impl<'a> Reader<'a> {
            fn take(&mut self, len: usize) -> Result<&'a [u8], String> {
                let (head, tail) = self.0.split_at_checked(len).ok_or("file too short")?;
                self.0 = tail;
                Ok(head)
            }
            fn word(&mut self) -> Result<usize, String> {
                Ok(u32::from_le_bytes(self.take(4)?.try_into().unwrap()) as usize)
            }
        }
        let mut f = Reader(bytes);
        if f.take(8)? != MAGIC {
            return Err("not a session file".into());
        }
        let (n, l, b, zero) = (f.word()?, f.word()?, f.word()?, f.word()?);
        if n > 8 || l > 300_000 || b != bucket_size(l) || zero != 0 {
            return Err("header".into());
        }
        let seed = u64::from_le_bytes(f.take(8)?.try_into().unwrap());
        let mut s = Session {
            n,
            l,
            seed,
            ..Default::default()
        };
        for _ in 0..n {
            s.parties.push(Party {
                delta: f.take(16)?.try_into().unwrap(),
                joint_seed: f.take(32)?.try_into().unwrap(),
                pair_seeds: f.take(32 * n)?.to_vec(),
                bits: f.take(s.bits_count() * record_len(n))?.to_vec(),
                alpha: f.take(l * record_len(n))?.to_vec(),
                beta: f.take(l * record_len(n))?.to_vec(),
                masks: f.take(n * l * b)?.to_vec(),
            });
        }
        s.r = f.take(s.r_len())?.to_vec();
        if !f.0.is_empty() {
            return Err("bytes after the end".into());
        }
        s.check()?;
        Ok(s)
    }

    /// Honest inputs: every MAC is the other party's key, plus its delta where the bit is 1.
    pub fn generate(n: usize, l: usize, seed: u64) -> Self {
        let mut s = Session {
            n,
            l,
            seed,
            ..Default::default()
        };
        let lb = l * s.b();
        // n and l enter too, so that no two sizes share their values.
        let mut g = SplitMix(seed ^ (n as u64) << 56 ^ (l as u64) << 32);
        let mut deltas = vec![[0; 16]; n];
        for delta in &mut deltas {
            g.fill(delta);
        }
        for delta in &deltas {
            let mut p = Party {
                delta: *delta,
                ..Default::default()
            };
            g.fill(&mut p.joint_seed);
            p.pair_seeds = g.bytes(32 * n);
            p.masks = g.bytes(n * lb);
            p.masks.iter_mut().for_each(|m| *m &= 1);
            s.parties.push(p);
        }
        let bits = g.shares(&deltas, s.bits_count());
        let alpha = g.shares(&deltas, l);
        let beta = g.shares(&deltas, l);
        for (p, ((bits, alpha), beta)) in s
            .parties
            .iter_mut()
            .zip(bits.into_iter().zip(alpha).zip(beta))
        {
            (p.bits, p.alpha, p.beta) = (bits, alpha, beta);
        }
        s.r = g.bytes(s.r_len());
        s
    }
}

/// 32 bytes of the generator of docs/VECTORS.md: the BLAKE3 of 16 bytes, so that any value can be
/// had without those before it.
pub fn draw(seed: u64, kind: u8, j: usize, k: usize, t: usize) -> [u8; 32] {
    let mut block = [0; 16];
    block[..8].copy_from_slice(&seed.to_le_bytes());
    block[8..12].copy_from_slice(&(t as u32).to_le_bytes());
    block[12..15].copy_from_slice(&[kind, j as u8, k as u8]);
    blake3::hash(&block).into()
}

/// The bit that a draw stands for.
pub fn drawn_bit(draw: [u8; 32]) -> u8 {
    draw[31] & 1
}

impl Session {
    /// Honest inputs by `draw`, as docs/VECTORS.md has them.
    pub fn drawn(n: usize, l: usize, seed: u64) -> Self {
        let mut s = Session {
            n,
            l,
            seed,
            ..Default::default()
        };
        let lb = l * s.b();
        let delta = |j| -> [u8; 16] { draw(seed, 0, j, 0, 0)[..16].try_into().unwrap() };
        let records = |kind, j, count| {
            let mut list = vec![];
            for t in 0..count {
                let bit = drawn_bit(draw(seed, kind, j, j, t));
                let mut record = blank(n, j, bit);
                for k in (0..n).filter(|k| *k != j) {
                    let mac = draw(seed, kind, j, k, t);
                    (0..16).for_each(|x| record[mac_at(k) + x] = mac[x] ^ (bit * delta(k)[x]));
                    record[key_at(k)..][..16].copy_from_slice(&draw(seed, kind, k, j, t)[..16]);
                }
                list.extend(record);
            }
            list
        };
        let list = |kind, j, count: usize| {
            let all = (0..n).flat_map(move |k| (0..count).map(move |t| (k, t)));
            all.map(move |(k, t)| draw(seed, kind, j, k, t))
        };
        for j in 0..n {
            s.parties.push(Party {
                delta: delta(j),
                joint_seed: draw(seed, 1, j, 0, 0),
                pair_seeds: list(2, j, 1).flatten().collect(),
                masks: list(3, j, lb).map(drawn_bit).collect(),
                bits: records(4, j, s.bits_count()),
                alpha: records(5, j, l),
                beta: records(6, j, l),
            });
        }
        s.r = (0..s.r_len() / 32)
            .flat_map(|t| draw(seed, 7, 0, 0, t))
            .collect();
        s
    }
}

/// SplitMix64 (Steele, Lea, Flood): small, and the same everywhere.
pub struct SplitMix(pub u64);

impl SplitMix {
    pub fn word(&mut self) -> u64 {
        self.0 = self.0.wrapping_add(0x9e3779b97f4a7c15);
        let mut z = self.0;
        z = (z ^ z >> 30).wrapping_mul(0xbf58476d1ce4e5b9);
        z = (z ^ z >> 27).wrapping_mul(0x94d049bb133111eb);
        z ^ z >> 31
    }

    pub fn below(&mut self, bound: usize) -> usize {
        ((u128::from(self.word()) * bound as u128) >> 64) as usize
    }

    pub fn fill(&mut self, dest: &mut [u8]) {
        for chunk in dest.chunks_mut(8) {
            chunk.copy_from_slice(&self.word().to_le_bytes()[..chunk.len()]);
        }
    }

    pub fn bytes(&mut self, len: usize) -> Vec<u8> {
        let mut v = vec![0; len];
        self.fill(&mut v);
        v
    }

    /// `count` share records for each party.
    fn shares(&mut self, deltas: &[[u8; 16]], count: usize) -> Vec<Vec<u8>> {
        let n = deltas.len();
        let record = record_len(n);
        let mut lists = vec![vec![0; count * record]; n];
        for t in 0..count {
            let bits = self.word();
            for j in 0..n {
                let bit = (bits >> j & 1) as u8;
                lists[j][t * record + BIT_AT] = bit;
                put_label(&mut lists[j][t * record..][..record], n, j);
                for k in (0..n).filter(|k| *k != j) {
                    let mut key = [0; 16];
                    self.fill(&mut key);
                    let at = t * record + key_at(j);
                    lists[k][at..at + 16].copy_from_slice(&key);
                    if bit == 1 {
                        key.iter_mut()
                            .zip(deltas[k])
                            .for_each(|(byte, d)| *byte ^= d);
                    }
                    let at = t * record + mac_at(k);
                    lists[j][at..at + 16].copy_from_slice(&key);
                }
            }
        }
        lists
    }
}
