//! `u8x16` and `u64x2` with what block.rs uses. Both are 16 plain bytes, aligned to 16.
#![allow(non_camel_case_types)]
use std::ops::{BitAnd, BitOr, BitXor, Not};

use bytemuck::{Pod, Zeroable};
use serde::{Deserialize, Deserializer, Serialize, Serializer, ser::SerializeTuple};

#[derive(Debug, Clone, Copy, Default, PartialEq, Eq)]
#[repr(C, align(16))]
pub struct u8x16([u8; 16]);

#[derive(Debug, Clone, Copy, Default, PartialEq, Eq)]
#[repr(C, align(16))]
pub struct u64x2([u64; 2]);

unsafe impl Zeroable for u8x16 {}
unsafe impl Pod for u8x16 {}
unsafe impl Zeroable for u64x2 {}
unsafe impl Pod for u64x2 {}

impl u8x16 {
    pub const ZERO: Self = Self([0; 16]);
    pub const MAX: Self = Self([u8::MAX; 16]);

    #[inline]
    pub const fn new(bytes: [u8; 16]) -> Self {
        Self(bytes)
    }

    #[inline]
    pub fn as_array(&self) -> &[u8; 16] {
        &self.0
    }

    #[inline]
    pub fn as_mut_array(&mut self) -> &mut [u8; 16] {
        &mut self.0
    }

    #[inline]
    fn word(self) -> u128 {
        u128::from_ne_bytes(self.0)
    }

    #[inline]
    fn of(word: u128) -> Self {
        Self(word.to_ne_bytes())
    }
}

impl u64x2 {
    #[inline]
    pub fn as_array(&self) -> &[u64; 2] {
        &self.0
    }
}

macro_rules! bitwise {
    ($name:ident, $f:ident, $op:tt) => {
        impl $name for u8x16 {
            type Output = Self;
            #[inline]
            fn $f(self, rhs: Self) -> Self {
                Self::of(self.word() $op rhs.word())
            }
        }
    };
}
bitwise!(BitAnd, bitand, &);
bitwise!(BitOr, bitor, |);
bitwise!(BitXor, bitxor, ^);

impl Not for u8x16 {
    type Output = Self;
    #[inline]
    fn not(self) -> Self {
        Self::of(!self.word())
    }
}

// A tuple of 16 bytes, so bincode writes them bare.
impl Serialize for u8x16 {
    fn serialize<S: Serializer>(&self, serializer: S) -> Result<S::Ok, S::Error> {
        let mut tuple = serializer.serialize_tuple(16)?;
        for byte in &self.0 {
            tuple.serialize_element(byte)?;
        }
        tuple.end()
    }
}

impl<'de> Deserialize<'de> for u8x16 {
    fn deserialize<D: Deserializer<'de>>(deserializer: D) -> Result<Self, D::Error> {
        <[u8; 16]>::deserialize(deserializer).map(Self)
    }
}
