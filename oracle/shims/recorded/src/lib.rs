//! The recorded values that stand for `random` and the r strings.
//!
//! One party's values are put in place while that party runs, and taken out after.
use std::{cell::RefCell, mem, sync::Arc};

#[derive(Default)]
pub struct Values {
    /// Bytes for `rand::random`, in the order of the draws.
    pub draws: Vec<u8>,
    pub drawn: usize,
    /// The Blocks for `AesRng`, the same for every party; `None` where it is to draw them by AES.
    pub r: Option<Arc<Vec<u8>>>,
    pub r_used: usize,
}

impl Values {
    /// Whether every value was taken: it shows that the draws came in the expected order.
    pub fn used_up(&self) -> bool {
        let r_len = self.r.as_ref().map_or(0, |r| r.len());
        self.drawn == self.draws.len() && self.r_used == r_len
    }
}

thread_local! {
    static VALUES: RefCell<Option<Values>> = const { RefCell::new(None) };
}

/// Puts values in place and gives back those that were there.
pub fn swap(values: Option<Values>) -> Option<Values> {
    VALUES.with(|v| mem::replace(&mut *v.borrow_mut(), values))
}

/// Fills dest with the next drawn bytes.
pub fn draw(dest: &mut [u8]) {
    VALUES.with(|v| {
        let mut v = v.borrow_mut();
        let v = v.as_mut().expect("oracle: no recorded values in place");
        let end = v.drawn + dest.len();
        assert!(end <= v.draws.len(), "oracle: recorded draws are used up");
        dest.copy_from_slice(&v.draws[v.drawn..end]);
        v.drawn = end;
    })
}

/// The next Block of r, or none where nothing is recorded and AES itself is wanted.
pub fn r_block() -> Option<[u8; 16]> {
    VALUES.with(|v| {
        let mut v = v.borrow_mut();
        let v = v.as_mut()?;
        let r = v.r.as_ref()?;
        let end = v.r_used + 16;
        assert!(end <= r.len(), "oracle: recorded r Blocks are used up");
        let block = r[v.r_used..end].try_into().unwrap();
        v.r_used = end;
        Some(block)
    })
}
