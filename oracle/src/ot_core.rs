//! In place of `ot_core`: correlated OT whose outputs are the recorded keys and MACs. It is silent,
//! so no message of the session is the OT's.
use std::{cell::RefCell, mem};

use rand_chacha::ChaCha20Rng;

use crate::{block::Block, channel::Channel, crypto::AesRng, mpc::faand::Error};

/// One party's outputs, by the other party.
#[derive(Default)]
pub(crate) struct Outputs {
    /// Key and key plus delta, as a correlated sender has them.
    pub(crate) keys: Vec<Vec<(Block, Block)>>,
    pub(crate) macs: Vec<Vec<Block>>,
}

thread_local! {
    static OUTPUTS: RefCell<Outputs> = const { RefCell::new(Outputs { keys: vec![], macs: vec![] }) };
}

/// Puts a party's outputs in place and gives back those that were there.
pub(crate) fn swap(outputs: Outputs) -> Outputs {
    OUTPUTS.with(|o| mem::replace(&mut *o.borrow_mut(), outputs))
}

// ot.rs imports these for their methods, which stand on the types themselves here.
pub(crate) trait CorrelatedReceiver {}
pub(crate) trait CorrelatedSender {}
pub(crate) trait Receiver {}
pub(crate) trait Sender {}

pub(crate) struct KosSender;
pub(crate) struct KosReceiver;

impl KosSender {
    pub(crate) async fn init(
        _: &impl Channel,
        _: &mut AesRng,
        _: usize,
        _: &mut ChaCha20Rng,
    ) -> Result<Self, Error> {
        Ok(Self)
    }

    pub(crate) async fn send_correlated(
        &mut self,
        _: &impl Channel,
        deltas: &[Block],
        _: &mut AesRng,
        p_to: usize,
        _: &mut ChaCha20Rng,
    ) -> Result<Vec<(Block, Block)>, Error> {
        let keys = OUTPUTS.with(|o| mem::take(&mut o.borrow_mut().keys[p_to]));
        assert_eq!(keys.len(), deltas.len(), "oracle: number of keys");
        Ok(keys)
    }
}

impl KosReceiver {
    pub(crate) async fn init(
        _: &impl Channel,
        _: &mut AesRng,
        _: usize,
        _: &mut ChaCha20Rng,
    ) -> Result<Self, Error> {
        Ok(Self)
    }

    pub(crate) async fn recv_correlated(
        &mut self,
        _: &impl Channel,
        bs: &[bool],
        _: &mut AesRng,
        p_to: usize,
        _: &mut ChaCha20Rng,
    ) -> Result<Vec<Block>, Error> {
        let macs = OUTPUTS.with(|o| mem::take(&mut o.borrow_mut().macs[p_to]));
        assert_eq!(macs.len(), bs.len(), "oracle: number of MACs");
        Ok(macs)
    }
}
