//! Why a command is refused: the rules of 01's order and of its command lines, mended by 02, with
//! the status word of each.

#[derive(Clone, Copy, Debug, PartialEq, Eq, PartialOrd, Ord, Hash)]
pub enum Refusal {
    Malformed,
    Class,
    Instruction,
    NotSelected,
    Parameters,
    NoRecord,
    Length,
    NoChannel,
    Mac,
    Unpersonalized,
    Personalized,
    NoKeySets,
    Sequence,
    Limit,
    Feature,
    Access,
    Flag,
    Level,
    Number,
    OtherAid,
    NoKeySet,
    Cryptogram,
    Structure,
    Data,
    Blocked,
    WrongPin,
    Currency,
    Amount,
    Debit,
    Credit,
}

impl Refusal {
    /// The status word.
    pub fn word(self) -> u16 {
        self.entry().0
    }

    /// The rule in the papers' words.
    pub fn rule(self) -> &'static str {
        self.entry().1
    }

    /// Steps 1 to 5: no chain has moved and no channel has closed.
    pub fn is_early(self) -> bool {
        self <= Refusal::Length
    }

    fn entry(self) -> (u16, &'static str) {
        match self {
            Refusal::Malformed => (0x6700, "step 1: under 4 bytes, or a length that Lc denies"),
            Refusal::Class => (0x6E00, "step 2: unknown CLA"),
            Refusal::Instruction => (0x6D00, "step 2: unknown INS, or an INS not of that CLA"),
            Refusal::NotSelected => (0x6985, "step 3: not selected"),
            Refusal::Parameters => (0x6A86, "step 4: P1 or P2"),
            Refusal::NoRecord => (0x6A83, "step 4: no record of that number"),
            Refusal::Length => (0x6700, "step 5: Lc"),
            Refusal::NoChannel => (0x6982, "step 6: no channel"),
            Refusal::Mac => (0x6982, "step 6: wrong C-MAC, the channel closes"),
            Refusal::Unpersonalized => (0x6985, "step 7: not personalized"),
            Refusal::Personalized => (0x6985, "step 7: already personalized"),
            Refusal::NoKeySets => (0x6985, "step 7: set 1 or 2 undefined"),
            Refusal::Sequence => (0x6985, "step 7: not directly after the command that begins"),
            Refusal::Limit => (0x6985, "it would pass a balance or number limit"),
            Refusal::Feature => (0x6A81, "step 8: feature missing"),
            Refusal::Access => (0x6982, "step 9: access"),
            Refusal::Flag => (0x6982, "step 9: bank credit without the PIN flag"),
            Refusal::Level => (0x6982, "step 9: security level"),
            Refusal::Number => (0x9410, "step 10: the number is at its maximum"),
            Refusal::OtherAid => (0x6A82, "step 11: another AID, or none; deselected"),
            Refusal::NoKeySet => (0x6A88, "step 11: undefined set"),
            Refusal::Cryptogram => (0x6300, "cryptogram wrong, any channel closes"),
            Refusal::Structure => (0x6A85, "step 11: a TLV past the end"),
            Refusal::Data => (0x6A80, "step 11: wrong data"),
            Refusal::Blocked => (0x6983, "step 11: no tries left"),
            Refusal::WrongPin => (0x6300, "step 11: wrong PIN, one try fewer"),
            Refusal::Currency => (0x9411, "step 11: another currency"),
            Refusal::Amount => (0x9412, "step 11: amount not above 0"),
            Refusal::Debit => (0x9413, "step 11: debit above maximum debit or balance"),
            Refusal::Credit => (0x9414, "step 11: credit past maximum balance"),
        }
    }
}
