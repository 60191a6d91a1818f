//! The state that stands where the model is, field by field as rule 9.2 has them, with libcrypto's AES.

use crate::aes;
use crate::head::Head;
use crate::model::Model;
use crate::state::{tail_len, Field, State};
use shared::context::{Context, Peers};
use shared::mac::{BlockCipher, Mac};
use shared::peers::Keyed;

pub struct Fields<'a> {
    mac: Mac<Keyed<'a>>,
    /// The head of the key and all header strings.
    pub head: Head,
}

impl<'a> Fields<'a> {
    pub fn new(peers: &'a Peers, context: &'a Context) -> Fields<'a> {
        let (mac_key, ctr_key) = context.key.split_at(context.key.len() / 2);
        let mac = Mac::new(peers.libcrypto.under(mac_key));
        let mut begun = State::ENDED;
        begun.set_number(Field::Width, mac_key.len() as u64);
        begun.set(Field::MacKeys, &aes::round_keys(mac_key));
        begun.set(Field::CtrKeys, &aes::round_keys(ctr_key));
        begun.set(Field::L, &mac.l);
        begun.set(Field::D, &mac.header_result(&context.strings()));
        Fields { mac, head: Head { begun, count: context.lens.len() as u64 } }
    }

    pub fn state(&self, model: &Model) -> State {
        if model.stage == 0 {
            return State::ENDED;
        }
        let plain = model.plain();
        let (passed, tail) = plain.split_at(plain.len() - tail_len(plain.len() as u64));
        let mut state = self.head.begun.clone();
        state.set_number(Field::Stage, model.stage);
        state.set(Field::Chain, &self.mac.cipher.chain([0; 16], passed));
        state.set(Field::V, &model.tag);
        state.set(Field::Kept, &model.kept());
        state.set_number(Field::Total, model.a.len() as u64);
        state.set_number(Field::Written, model.w.len() as u64);
        state.set_tail(tail);
        state
    }
}
