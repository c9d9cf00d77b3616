//! Private functions of faand.rs, called alone. This file is a module of faand.rs.

use super::*;
use crate::{
    record,
    run::{End, caught, refusal},
};

/// `combine_bucket`: x1 y1 z1 x2 y2 z2 .. as shares of party i, and a byte d for each triple after
/// the first. Gives the shares x, y, z.
pub fn combine(
    n: usize,
    i: usize,
    triples: &[record::Share],
    d: &[u8],
) -> Result<Vec<record::Share>, End> {
    let bucket: Vec<_> = triples
        .as_chunks::<3>()
        .0
        .iter()
        .map(|[x, y, z]| (&x.0, &y.0, &z.0))
        .collect();
    let d = d.iter().map(|d| *d != 0).collect();
    match caught(|| combine_bucket(i, n, bucket, d)) {
        Ok(Ok((x, y, z))) => Ok([x, y, z].map(record::Share).to_vec()),
        Ok(Err(error)) => Err(refusal(error, 0)),
        Err(error) => Err(End::Panic { round: 0, error }),
    }
}

/// `chunked_update_with_rbits` over Blocks, as `fabitn` sums MACs and keys.
pub fn r_sum(blocks: &[[u8; 16]], r: &[[u8; 16]]) -> [u8; 16] {
    let mut sum = Block::ZERO;
    let blocks: &[Block] = &blocks.iter().map(|b| Block::new(*b)).collect::<Vec<_>>();
    let r: Vec<_> = r.iter().map(|b| Block::new(*b)).collect();
    chunked_update_with_rbits(blocks, &r, |block, rbit| {
        let mask = Block::from((-(rbit as i128)) as u128);
        sum ^= *block & mask;
    });
    sum.into()
}

/// What `fabitn` sums for one other party, laid ready: bits, MACs or keys, and the 120 strings.
pub struct Sums {
    bits: Vec<bool>,
    blocks: Vec<Block>,
    r: Vec<Vec<Block>>,
}

impl Sums {
    /// r has the 120 strings one after another.
    pub fn new(bits: &[u8], blocks: &[[u8; 16]], r: &[[u8; 16]]) -> Self {
        let block = |b: &[u8; 16]| Block::new(*b);
        Self {
            bits: bits.iter().map(|bit| *bit == 1).collect(),
            blocks: blocks.iter().map(block).collect(),
            r: (r
                .chunks_exact(r.len() / 120)
                .map(|row| row.iter().map(block).collect()))
            .collect(),
        }
    }

    /// The sums of the Blocks, as `fabitn` makes them.
    pub fn block_sums(&self) -> Vec<[u8; 16]> {
        let mut sums = Vec::with_capacity(120);
        for rbits in &self.r {
            let mut sum = Block::ZERO;
            chunked_update_with_rbits(&self.blocks, rbits, |mac, rbit| {
                let mask = Block::from((-(rbit as i128)) as u128);
                sum ^= *mac & mask;
            });
            sums.push(sum.into());
        }
        sums
    }

    /// The sums of the bits, as `fabitn` makes them.
    pub fn bit_sums(&self) -> Vec<bool> {
        let mut sums = Vec::with_capacity(120);
        for rbits in &self.r {
            let mut sum = false;
            chunked_update_with_rbits(&self.bits, rbits, |xi, rbit| {
                let ri = rbit != 0;
                sum ^= xi & ri;
            });
            sums.push(sum);
        }
        sums
    }
}
