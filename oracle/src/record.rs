//! Share records; how one is laid out is known here alone (02, order 5). The head has 32 bytes: the bit, and behind it
//! the label, which is n, the own number and 29 zero bytes. Then for each party an entry, 16 bytes of the MAC for it
//! and 16 of its key.

use crate::{
    block::Block,
    mpc::data_types::{self, Auth, Key, Mac},
};

/// Bytes of a record's head.
pub const HEAD: usize = 32;

// Where the head has what; the label starts with n, and from FILLER_AT on it is zero.
pub const BIT_AT: usize = 0;
pub const N_AT: usize = 1;
pub const OWN_AT: usize = 2;
pub const FILLER_AT: usize = 3;

/// Bytes of an entry of a share record: a MAC, then a key.
pub const ENTRY: usize = 32;

/// Bytes of a share record.
pub fn record_len(n: usize) -> usize {
    mac_at(n)
}

/// Where party k's MAC starts in a share record, and so its entry.
pub fn mac_at(k: usize) -> usize {
    HEAD + ENTRY * k
}

/// Where party k's key starts in a share record.
pub fn key_at(k: usize) -> usize {
    mac_at(k) + 16
}

/// The head of a record of party i among n.
pub fn head(n: usize, i: usize, bit: u8) -> [u8; HEAD] {
    let mut head = [0; HEAD];
    head[BIT_AT] = bit;
    head[N_AT] = n as u8;
    head[OWN_AT] = i as u8;
    head
}

/// Makes a record's label that of party i among n; the bit stays.
pub fn put_label(record: &mut [u8], n: usize, i: usize) {
    let head = head(n, i, record[BIT_AT]);
    record[..HEAD].copy_from_slice(&head);
}

/// Records as a box keeps them: bit and entries, without the label.
pub fn kept(records: &[u8], n: usize) -> Vec<u8> {
    let records = records.chunks_exact(record_len(n));
    records
        .flat_map(|record| std::iter::once(record[BIT_AT]).chain(record[HEAD..].iter().copied()))
        .collect()
}

/// The bytes of such a record.
pub fn kept_len(n: usize) -> usize {
    record_len(n) - HEAD + 1
}

/// Whether a record's label is that of party i among n.
pub fn labelled(record: &[u8], n: usize, i: usize) -> bool {
    record[..HEAD] == head(n, i, record[BIT_AT])
}

/// A record of party i among n with this bit; its MACs and keys are zero.
pub fn blank(n: usize, i: usize, bit: u8) -> Vec<u8> {
    let mut record = head(n, i, bit).to_vec();
    record.resize(record_len(n), 0);
    record
}

/// What is wrong with a record that is lent to party i of n: the first of 1, 22 and 4.
pub fn record_fault(record: &[u8], n: usize, i: usize) -> Option<u8> {
    let own = &record[mac_at(i)..][..ENTRY];
    match () {
        _ if record[BIT_AT] > 1 => Some(1),
        _ if !labelled(record, n, i) => Some(22),
        _ if own.iter().any(|byte| *byte != 0) => Some(4),
        _ => None,
    }
}

/// A share by value: the Rust's own, so that shares compare as they do there. It has no label.
#[derive(Clone, Debug, PartialEq, Eq)]
pub struct Share(pub(crate) data_types::Share);

impl Share {
    /// The share in a record, whatever the label says.
    pub fn read(record: &[u8]) -> Self {
        let entries = record[mac_at(0)..].chunks_exact(ENTRY);
        let auth = entries.map(|e| (Mac(block(&e[..16])), Key(block(&e[16..]))));
        let bit = record[BIT_AT] & 1 == 1;
        Share(data_types::Share(bit, Auth(auth.collect())))
    }

    pub fn bit(&self) -> u8 {
        self.0.0.into()
    }

    /// The MAC for party k.
    pub fn mac(&self, k: usize) -> [u8; 16] {
        self.0.1.0[k].0.0.into()
    }

    /// The key of party k.
    pub fn key(&self, k: usize) -> [u8; 16] {
        self.0.1.0[k].1.0.into()
    }

    fn put(&self, i: usize, out: &mut Vec<u8>) {
        let auth = &self.0.1.0;
        out.extend(head(auth.len(), i, self.bit()));
        for (mac, key) in auth {
            out.extend(mac.0.as_bytes());
            out.extend(key.0.as_bytes());
        }
    }
}

pub(crate) fn block(bytes: &[u8]) -> Block {
    Block::new(bytes.try_into().unwrap())
}

/// The shares in a list of records.
pub fn shares(records: &[u8], n: usize) -> Vec<Share> {
    records
        .chunks_exact(record_len(n))
        .map(Share::read)
        .collect()
}

/// Shares as party i's records.
pub fn records(shares: &[Share], i: usize) -> Vec<u8> {
    let mut out = vec![];
    shares.iter().for_each(|share| share.put(i, &mut out));
    out
}
