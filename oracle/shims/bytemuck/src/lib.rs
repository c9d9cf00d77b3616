//! bytemuck 1.12 with the later `must_cast`, and the derives that Debian does not package.
pub use bytemuck_derive::{Pod, Zeroable};
pub use bytemuck1::*;

#[inline]
pub fn must_cast<A: Pod, B: Pod>(a: A) -> B {
    bytemuck1::cast(a)
}

#[inline]
pub fn must_cast_ref<A: Pod, B: Pod>(a: &A) -> &B {
    bytemuck1::cast_ref(a)
}
