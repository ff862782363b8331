//! A command's bytes: step 1 of 01's order.

use super::Refusal;

#[derive(Clone, Copy, Debug, PartialEq, Eq)]
pub struct Apdu<'a> {
    pub class: u8,
    pub instruction: u8,
    pub p1: u8,
    pub p2: u8,
    /// Empty if the command has none; at most 255 bytes.
    pub data: &'a [u8],
}

impl<'a> Apdu<'a> {
    /// 01: "Under 4 bytes: 6700. Four bytes: no data. Five: Le only. Else byte 5 is Lc, 1 to 255,
    /// and the length is 5+Lc or 6+Lc; otherwise 6700. Le is ignored."
    pub fn read(command: &'a [u8]) -> Result<Apdu<'a>, Refusal> {
        let [class, instruction, p1, p2, rest @ ..] = command else {
            return Err(Refusal::Malformed);
        };
        let data = match rest {
            [] | [_] => &[],
            [0, ..] => return Err(Refusal::Malformed),
            [lc, body @ ..] => without_le(body, usize::from(*lc)).ok_or(Refusal::Malformed)?,
        };
        Ok(Apdu {
            class: *class,
            instruction: *instruction,
            p1: *p1,
            p2: *p2,
            data,
        })
    }

    /// The five header bytes; Lc counts all data.
    pub fn header(&self) -> [u8; 5] {
        let lc = self.data.len() as u8;
        [self.class, self.instruction, self.p1, self.p2, lc]
    }
}

fn without_le(body: &[u8], lc: usize) -> Option<&[u8]> {
    let fits = body.len() == lc || body.len() == lc + 1;
    fits.then(|| &body[..lc])
}
