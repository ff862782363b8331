//! What an administration terminal does: keys, PIN, personalization, parameters.

use super::player::Player;
use crate::purse::card::Set;
use crate::purse::channel::{encipher, encipher_bank};
use crate::purse::datum::Tag;
use crate::purse::instruction::Instruction;
use crate::purse::Key;
use crate::terminal::{tlv, wrap_keys};

impl Player {
    /// Usually the administration channel; now and then another set's or none.
    fn ensure_admin(&mut self) {
        if self.one_in(10) {
            self.ensure(&[Set::Debit, Set::Credit]);
        } else {
            self.ensure(&[Set::Admin]);
        }
    }

    fn dek(&self) -> Key {
        self.scenario.bench.session.dek(&self.card())
    }

    /// The next step of personalization.
    pub fn personalize(&mut self) {
        self.ensure_admin();
        let purse = self.card().purse;
        if purse.debit.is_none() && !self.one_in(10) {
            self.put_key_of(Set::Debit);
        } else if purse.credit.is_none() && !self.one_in(10) {
            self.put_key_of(Set::Credit);
        } else if self.card().pin.is_none() && self.one_in(2) {
            self.change_pin();
        } else {
            self.store_data();
        }
    }

    pub fn put_key(&mut self) {
        self.ensure_admin();
        let set = self.set();
        self.put_key_of(set);
    }

    fn put_key_of(&mut self, set: Set) {
        let keys = self.key_set();
        let data = wrap_keys(&self.dek(), &keys);
        self.signed(Instruction::PutKey, 0x00, set as u8, &data);
    }

    pub fn change_pin(&mut self) {
        self.ensure_admin();
        if self.one_in(3) {
            return self.unblock();
        }
        let block = if self.one_in(4) {
            self.bad_pin()
        } else {
            self.good_pin()
        };
        let data = encipher(&self.dek(), block);
        self.signed(Instruction::PinChange, 0x00, 0x00, &data);
    }

    pub fn unblock(&mut self) {
        self.signed(Instruction::PinChange, 0x00, 0x00, &[]);
    }

    pub fn store_data(&mut self) {
        self.ensure_admin();
        let mut tlvs = self.good_tlvs();
        if self.one_in(3) {
            self.spoil_tlvs(&mut tlvs);
        }
        let mut data = tlvs.concat();
        if self.one_in(12) && !data.is_empty() {
            data.truncate(self.below(data.len()));
        }
        data.truncate(247);
        self.signed(Instruction::StoreData, 0x80, 0x00, &data);
    }

    /// TLVs of 01 to 05, of 06 and 07 at times, in any order.
    fn good_tlvs(&mut self) -> Vec<Vec<u8>> {
        let mut tlvs: Vec<Vec<u8>> = (1..=5).map(|tag| tlv(tag, &self.good_value(tag))).collect();
        for tag in [6, 7] {
            if !self.one_in(3) {
                tlvs.push(tlv(tag, &self.good_value(tag)));
            }
        }
        for place in (1..tlvs.len()).rev() {
            tlvs.swap(place, self.scenario.random.below(place + 1));
        }
        tlvs
    }

    /// A value in range for a tag from 01 to 07.
    fn good_value(&mut self, tag: u8) -> Vec<u8> {
        match tag {
            0x01 => self.bytes(4),
            0x02 => self.pick(&[[0x09, 0x78], [0x08, 0x40]]).to_vec(),
            0x03 | 0x04 => self.maximum().to_be_bytes().to_vec(),
            0x05 => self.most_number().to_be_bytes().to_vec(),
            0x06 if self.one_in(5) => Vec::new(),
            0x06 => {
                let bank = self.bytes(16).try_into().unwrap_or_default();
                encipher_bank(&self.dek(), bank).to_vec()
            }
            _ if self.one_in(5) => Vec::new(),
            _ => self.aid(),
        }
    }

    /// One error in the TLVs.
    fn spoil_tlvs(&mut self, tlvs: &mut Vec<Vec<u8>>) {
        let place = self.below(tlvs.len());
        match self.below(8) {
            0 => tlvs[place][0] = self.pick(&[0x00, 0x08, 0x14, 0x15, 0x16, 0x17, 0xFF]),
            1 => tlvs.push(tlvs[place].clone()),
            2 => tlvs.extend([tlv(0x06, &[]), tlv(0x06, &[])]),
            3 => drop(tlvs.remove(place)),
            4 => {
                let length = self.below(20);
                tlvs[place] = tlv(tlvs[place][0], &self.bytes(length));
            }
            5 => tlvs.push(tlv(self.pick(&[0x03, 0x04]), &[0x80, 0x00])),
            6 => tlvs[place][1] = self.pick(&[0x00, 0x01, 0x40, 0xFF]),
            _ => tlvs.clear(),
        }
    }

    pub fn put_data(&mut self) {
        self.ensure_admin();
        let tag = self.pick(&Tag::ALL) as u8;
        let value = match tag {
            0x14..=0x17 => self.bytes(2),
            _ if self.one_in(4) => self.bad_value(tag),
            _ => self.good_value(tag),
        };
        self.signed(Instruction::PutData, 0x02, tag, &value);
    }

    /// A value at or past a limit of the card, or of another length.
    fn bad_value(&mut self, tag: u8) -> Vec<u8> {
        let card = self.card();
        let edge = match tag {
            0x05 => card.number,
            _ => card.purse.balance,
        };
        let words = [edge, edge.wrapping_sub(1), 0x8000, 0xFFFF];
        match self.below(3) {
            0 | 1 if (3..=5).contains(&tag) => self.pick(&words).to_be_bytes().to_vec(),
            _ => {
                let length = self.below(20);
                self.bytes(length)
            }
        }
    }
}
