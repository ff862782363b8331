//! 01's order of refusals: for each command, every rule alone gives its word, and of two rules that
//! both refuse, the earlier one decides. A refusal leaves the card alone.

mod support;

use second::purse::card::{Card, Set};
use second::purse::channel::{encipher, Challenges, SessionKeys};
use second::purse::refusal::Refusal;
use second::purse::session::{Channel, Kind, Level, Pending, Session};
use second::purse::{respond, Outcome};
use support::{bytes, personalized};

#[derive(Clone, Copy, PartialEq)]
enum Mac {
    Absent,
    Right,
    Wrong,
}

/// A command in the making and the state that it meets.
#[derive(Clone)]
struct Scene {
    card: Card,
    session: Session,
    header: [u8; 4],
    data: Vec<u8>,
    mac: Mac,
    /// Bytes that no Lc allows behind the command.
    tail: Vec<u8>,
}

/// A rule: its word, the refusal behind it, and how to break it.
#[derive(Clone, Copy)]
struct Rule(u16, Refusal, fn(&mut Scene));

fn channel(set: Set) -> Channel {
    Channel {
        set,
        level: Level::Both,
        keys: SessionKeys {
            enc: [0x3C; 16],
            mac: [0x5A; 16],
        },
        command: [0x77; 8],
        response: [0x99; 8],
    }
}

fn scene(header: &str, data: &[u8], mac: Mac, set: Set) -> Scene {
    Scene {
        card: personalized(),
        session: Session {
            selected: true,
            validated: true,
            channel: Some(channel(set)),
            pending: None,
        },
        header: bytes(header).try_into().expect("4 bytes"),
        data: data.to_vec(),
        mac,
        tail: Vec::new(),
    }
}

impl Scene {
    /// The MAC key and the start that the card will use, if it has any.
    fn signer(&self) -> Option<(SessionKeys, [u8; 8])> {
        if self.header[1] == 0x82 {
            let Some(Pending::Update { challenges, .. }) = &self.session.pending else {
                return None;
            };
            return Some((SessionKeys::derive(&self.card.admin, challenges), [0; 8]));
        }
        let channel = self.session.channel.as_ref()?;
        Some((channel.keys.clone(), channel.command))
    }

    fn command(&self) -> Vec<u8> {
        let mut data = self.data.clone();
        if self.mac != Mac::Absent {
            let [class, instruction, p1, p2] = self.header;
            let header = [class, instruction, p1, p2, data.len() as u8 + 8];
            let mut mac = match self.signer() {
                Some((keys, start)) => keys.command_mac(&start, &header, &data),
                None => [0; 8],
            };
            if self.mac == Mac::Wrong {
                mac[7] ^= 1;
            }
            data.extend(mac);
        }
        let mut command = self.header.to_vec();
        if !data.is_empty() {
            command.push(data.len() as u8);
        }
        [command, data, self.tail.clone()].concat()
    }

    fn open_with(&mut self, set: Set) {
        if let Some(channel) = &mut self.session.channel {
            channel.set = set;
        }
    }

    fn run(&self) -> Outcome {
        respond(&self.card, &self.session, &self.command(), &[0xEE; 8])
    }
}

const MALFORMED: Rule = Rule(0x6700, Refusal::Malformed, |scene| {
    scene.tail = vec![0; 300];
});
const CLASS: Rule = Rule(0x6E00, Refusal::Class, |scene| scene.header[0] = 0x85);
const INSTRUCTION: Rule = Rule(0x6D00, Refusal::Instruction, |scene| {
    scene.header[1] = 0x00;
});
const UNSELECTED: Rule = Rule(0x6985, Refusal::NotSelected, |scene| {
    scene.session.selected = false;
});
const P1: Rule = Rule(0x6A86, Refusal::Parameters, |scene| {
    scene.header[2] = 0xEE;
});
const P2: Rule = Rule(0x6A86, Refusal::Parameters, |scene| {
    scene.header[3] = 0xEE;
});
const LONGER: Rule = Rule(0x6700, Refusal::Length, |scene| scene.data.push(0));
const UNDER_8: Rule = Rule(0x6700, Refusal::Length, |scene| {
    scene.data = vec![0; 7];
    scene.mac = Mac::Absent;
});
const NO_DATA: Rule = Rule(0x6700, Refusal::Length, |scene| {
    scene.data.clear();
    scene.mac = Mac::Absent;
});
const NO_CHANNEL: Rule = Rule(0x6982, Refusal::NoChannel, |scene| {
    scene.session.channel = None;
});
const WRONG_MAC: Rule = Rule(0x6982, Refusal::Mac, |scene| scene.mac = Mac::Wrong);
const UNPERSONALIZED: Rule = Rule(0x6985, Refusal::Unpersonalized, |scene| {
    scene.card.purse.personalized = false;
});
const LEVEL: Rule = Rule(0x6982, Refusal::Level, |scene| {
    if let Some(channel) = &mut scene.session.channel {
        channel.level = Level::Command;
    }
});
/// Below ADMIN.
const ACCESS: Rule = Rule(0x6982, Refusal::Access, |scene| {
    scene.open_with(Set::Credit);
});
/// Below CREDIT.
const DEBIT_SET: Rule = Rule(0x6982, Refusal::Access, |scene| scene.open_with(Set::Debit));

/// Steps 1 to 3.
const EARLY: [Rule; 4] = [MALFORMED, CLASS, INSTRUCTION, UNSELECTED];

/// Steps 1 to 6 of a signed command.
const SIGNED: [Rule; 9] = [
    MALFORMED,
    CLASS,
    INSTRUCTION,
    UNSELECTED,
    P1,
    P2,
    NO_DATA,
    NO_CHANNEL,
    WRONG_MAC,
];

/// Checks every rule alone and every pair, in the order of the parts.
fn check(name: &str, base: &Scene, parts: &[&[Rule]]) {
    let rules = parts.concat();
    assert_eq!(base.run().verdict.refusal, None, "{name} as it stands");
    for (place, first) in rules.iter().enumerate() {
        let mut broken = base.clone();
        first.2(&mut broken);
        judge(&format!("{name}, rule {place}"), &broken, first);
        for (later, second) in rules.iter().enumerate().skip(place + 1) {
            let mut broken = base.clone();
            second.2(&mut broken);
            first.2(&mut broken);
            judge(
                &format!("{name}, rules {place} and {later}"),
                &broken,
                first,
            );
        }
    }
}

fn judge(name: &str, scene: &Scene, rule: &Rule) {
    let outcome = scene.run();
    let Rule(word, refusal, _) = rule;
    assert_eq!(outcome.verdict.refusal, Some(*refusal), "{name}");
    assert_eq!(outcome.response, word.to_be_bytes(), "{name}");
    assert_eq!(outcome.session.pending, None, "{name}");
    let mut card = scene.card.clone();
    if *refusal == Refusal::WrongPin {
        card.tries -= 1;
    }
    assert_eq!(outcome.card, card, "{name}");
    assert_eq!(
        outcome.session.channel,
        channel_after(scene, *refusal),
        "{name}"
    );
}

/// Steps 1 to 5 leave the channel, step 6 closes it, a right C-MAC moves its chain.
fn channel_after(scene: &Scene, refusal: Refusal) -> Option<Channel> {
    let mut channel = scene.session.channel.clone();
    let signed = scene.mac == Mac::Right && scene.header[1] != 0x82;
    match refusal {
        Refusal::NoChannel | Refusal::Mac | Refusal::Cryptogram | Refusal::OtherAid => None,
        Refusal::Malformed
        | Refusal::Class
        | Refusal::Instruction
        | Refusal::NotSelected
        | Refusal::Parameters
        | Refusal::NoRecord
        | Refusal::Length => channel,
        _ => {
            if let (true, Some(channel)) = (signed, &mut channel) {
                let command = scene.command();
                channel.command = *command.last_chunk().expect("a C-MAC");
            }
            channel
        }
    }
}

#[test]
fn select() {
    let aid = bytes("A0000001515001");
    let base = scene("00A40400", &aid, Mac::Absent, Set::Debit);
    let other = Rule(0x6A82, Refusal::OtherAid, |scene| scene.data.push(0));
    let none = Rule(0x6A82, Refusal::OtherAid, |scene| scene.data.clear());
    for last in [other, none] {
        check("SELECT", &base, &[&EARLY[..3], &[P1, P2, last]]);
    }
}

#[test]
fn initialize_update() {
    let base = scene("80500100", &[1; 8], Mac::Absent, Set::Debit);
    let undefined = Rule(0x6A88, Refusal::NoKeySet, |scene| {
        scene.card.purse.debit = None;
    });
    for length in [LONGER, NO_DATA] {
        check(
            "INITIALIZE UPDATE",
            &base,
            &[&EARLY, &[P1, P2, length, undefined]],
        );
    }
}

#[test]
fn external_authenticate() {
    let challenges = Challenges {
        host: [1; 8],
        card: [2; 8],
    };
    let mut base = scene("84821100", &[], Mac::Right, Set::Debit);
    let derived = SessionKeys::derive(&base.card.admin, &challenges);
    base.data = derived.host_cryptogram(&challenges).to_vec();
    base.session.pending = Some(Pending::Update {
        set: Set::Admin,
        challenges,
    });
    let sequence = Rule(0x6985, Refusal::Sequence, |scene| {
        scene.session.pending = None;
    });
    let cryptogram = Rule(0x6300, Refusal::Cryptogram, |scene| {
        scene.data[0] ^= 1;
    });
    let own = [P1, P2, LONGER, sequence, cryptogram, WRONG_MAC];
    check("EXTERNAL AUTHENTICATE", &base, &[&EARLY, &own]);
    check(
        "EXTERNAL AUTHENTICATE",
        &base,
        &[&EARLY, &[NO_DATA, sequence]],
    );
}

#[test]
fn put_key() {
    let base = scene("84D80001", &[7; 48], Mac::Right, Set::Admin);
    check("PUT KEY", &base, &[&SIGNED, &[ACCESS]]);
    check("PUT KEY", &base, &[&EARLY, &[P1, LONGER, NO_CHANNEL]]);
}

#[test]
fn pin_change() {
    let mut base = scene("84240000", &[], Mac::Right, Set::Admin);
    base.data = encipher(
        &base.card.admin.dek,
        [0x25, 0x12, 0x34, 0x5F, 0xFF, 0xFF, 0xFF, 0xFF],
    )
    .to_vec();
    let block = Rule(0x6A80, Refusal::Data, |scene| scene.data[0] ^= 1);
    check("PIN CHANGE", &base, &[&SIGNED, &[ACCESS, block]]);
    check("PIN CHANGE", &base, &[&EARLY, &[P1, LONGER, NO_CHANNEL]]);
}

#[test]
fn pin_unblock() {
    let base = scene("84240000", &[], Mac::Right, Set::Admin);
    let no_pin = Rule(0x6A81, Refusal::Feature, |scene| scene.card.pin = None);
    check("PIN UNBLOCK", &base, &[&SIGNED, &[no_pin, ACCESS]]);
}

#[test]
fn store_data() {
    let tlvs = bytes("010400010203 02020978 030203E8 040201F4 0502000A");
    let mut base = scene("84E28000", &tlvs, Mac::Right, Set::Admin);
    base.card.purse.personalized = false;
    let personalized = Rule(0x6985, Refusal::Personalized, |scene| {
        scene.card.purse.personalized = true;
    });
    let no_debit = Rule(0x6985, Refusal::NoKeySets, |scene| {
        scene.card.purse.debit = None;
    });
    let no_credit = Rule(0x6985, Refusal::NoKeySets, |scene| {
        scene.card.purse.credit = None;
    });
    let past_end = Rule(0x6A85, Refusal::Structure, |scene| scene.data.push(0x06));
    let unknown = Rule(0x6A80, Refusal::Data, |scene| {
        scene.data.extend([0x08, 0x00]);
    });
    for no_set in [no_debit, no_credit] {
        let own = [personalized, no_set, ACCESS, past_end, unknown];
        check("STORE DATA", &base, &[&SIGNED, &own]);
    }
    check("STORE DATA", &base, &[&EARLY, &[P1, UNDER_8, NO_CHANNEL]]);
}

#[test]
fn verify_pin() {
    let mut base = scene("94200000", &[], Mac::Absent, Set::Credit);
    base.data = encipher(&[0x3C; 16], base.card.pin.expect("a PIN")).to_vec();
    let no_pin = Rule(0x6A81, Refusal::Feature, |scene| scene.card.pin = None);
    let no_channel = Rule(0x6982, Refusal::Access, |scene| {
        scene.session.channel = None;
    });
    let blocked = Rule(0x6983, Refusal::Blocked, |scene| scene.card.tries = 0);
    let wrong = Rule(0x6300, Refusal::WrongPin, |scene| scene.data[7] ^= 1);
    for length in [LONGER, NO_DATA] {
        check(
            "VERIFY PIN",
            &base,
            &[&EARLY, &[P1, P2, length, UNPERSONALIZED]],
        );
    }
    for access in [no_channel, DEBIT_SET] {
        let own = [P1, LONGER, UNPERSONALIZED, no_pin, access, blocked, wrong];
        check("VERIFY PIN", &base, &[&EARLY, &own]);
    }
}

const NUMBER: Rule = Rule(0x9410, Refusal::Number, |scene| {
    scene.card.number = scene.card.most_number;
});
const CURRENCY: Rule = Rule(0x9411, Refusal::Currency, |scene| scene.data[1] ^= 1);
const AMOUNT: Rule = Rule(0x9412, Refusal::Amount, |scene| scene.data[2] = 0x80);

#[test]
fn initialize_bank_credit() {
    for set in [Set::Credit, Set::Admin] {
        check_bank_credit(set);
    }
}

fn check_bank_credit(set: Set) {
    let base = scene("94440200", &bytes("09780001"), Mac::Right, set);
    let no_bank = Rule(0x6A81, Refusal::Feature, |scene| {
        scene.card.purse.bank = None;
    });
    let no_pin = Rule(0x6A81, Refusal::Feature, |scene| scene.card.pin = None);
    let no_flag = Rule(0x6982, Refusal::Flag, |scene| {
        scene.session.validated = false;
    });
    let full = Rule(0x9414, Refusal::Credit, |scene| {
        scene.card.purse.balance = scene.card.purse.most_balance;
    });
    for lacks in [no_bank, no_pin] {
        let own = [
            UNPERSONALIZED,
            lacks,
            DEBIT_SET,
            no_flag,
            LEVEL,
            NUMBER,
            CURRENCY,
            AMOUNT,
            full,
        ];
        check("INITIALIZE TRANSACTION", &base, &[&SIGNED, &own]);
    }
    check(
        "INITIALIZE TRANSACTION",
        &base,
        &[&EARLY, &[P1, LONGER, NO_CHANNEL]],
    );
}

#[test]
fn initialize_debit() {
    let base = scene("94440000", &bytes("0978015E"), Mac::Right, Set::Debit);
    let above_most = Rule(0x9413, Refusal::Debit, |scene| {
        scene.card.purse.most_debit = 349;
    });
    let above_balance = Rule(0x9413, Refusal::Debit, |scene| {
        scene.card.purse.balance = 349;
    });
    for high in [above_most, above_balance] {
        let own = [UNPERSONALIZED, LEVEL, NUMBER, CURRENCY, AMOUNT, high];
        check("INITIALIZE TRANSACTION", &base, &[&SIGNED, &own]);
    }
}

#[test]
fn initialize_cash_credit() {
    let base = scene("94440100", &bytes("0978028A"), Mac::Right, Set::Credit);
    let past = Rule(0x9414, Refusal::Credit, |scene| scene.data[3] += 1);
    let own = [
        UNPERSONALIZED,
        DEBIT_SET,
        LEVEL,
        NUMBER,
        CURRENCY,
        AMOUNT,
        past,
    ];
    check("INITIALIZE TRANSACTION", &base, &[&SIGNED, &own]);
}

#[test]
fn complete_transaction() {
    let mut base = scene("94460000", &[3; 16], Mac::Right, Set::Debit);
    base.session.pending = Some(Pending::Transaction {
        kind: Kind::Debit,
        amount: 350,
    });
    let sequence = Rule(0x6985, Refusal::Sequence, |scene| {
        scene.session.pending = None;
    });
    let number = Rule(0x6985, Refusal::Limit, |scene| {
        scene.card.number = scene.card.most_number;
    });
    let balance = Rule(0x6985, Refusal::Limit, |scene| {
        scene.card.purse.balance = 349;
    });
    for limit in [number, balance] {
        let own = [UNPERSONALIZED, sequence, LEVEL, limit];
        check("COMPLETE TRANSACTION", &base, &[&SIGNED, &own]);
    }
    check(
        "COMPLETE TRANSACTION",
        &base,
        &[&EARLY, &[P1, LONGER, NO_CHANNEL]],
    );
}

#[test]
fn get_data() {
    let base = scene("80CA0215", &[], Mac::Absent, Set::Debit);
    check("GET DATA", &base, &[&EARLY, &[P1, P2, LONGER]]);
}

#[test]
fn put_data() {
    let base = scene("84DA0203", &bytes("03E8"), Mac::Right, Set::Admin);
    let range = Rule(0x6A80, Refusal::Data, |scene| scene.data[0] = 0x80);
    let short = Rule(0x6A80, Refusal::Data, |scene| scene.data.truncate(1));
    for data in [range, short] {
        let own = [UNPERSONALIZED, ACCESS, data];
        check("PUT DATA", &base, &[&SIGNED, &own]);
    }
    check("PUT DATA", &base, &[&EARLY, &[P1, P2, UNDER_8, NO_CHANNEL]]);
}

/// PUT DATA's 6A81 comes behind personalization and before access.
#[test]
fn put_data_of_other_tags() {
    for tag in ["01", "14", "15", "16", "17"] {
        let mut base = scene(
            &format!("84DA02{tag}"),
            &bytes("00"),
            Mac::Right,
            Set::Admin,
        );
        judge(tag, &base, &Rule(0x6A81, Refusal::Feature, |_| ()));
        ACCESS.2(&mut base);
        judge(tag, &base, &Rule(0x6A81, Refusal::Feature, |_| ()));
        UNPERSONALIZED.2(&mut base);
        judge(tag, &base, &UNPERSONALIZED);
    }
    let mut base = scene("84DA0202", &bytes("0840"), Mac::Right, Set::Admin);
    base.card.purse.balance = 0;
    let balance = Rule(0x6A81, Refusal::Feature, |scene| {
        scene.card.purse.balance = 1;
    });
    check(
        "PUT DATA",
        &base,
        &[&SIGNED, &[UNPERSONALIZED, balance, ACCESS]],
    );
}

#[test]
fn read_record() {
    let base = scene("00B20104", &[], Mac::Absent, Set::Debit);
    let zero = Rule(0x6A83, Refusal::NoRecord, |scene| scene.header[2] = 0);
    let past = Rule(0x6A83, Refusal::NoRecord, |scene| scene.header[2] = 11);
    for record in [zero, past] {
        check("READ RECORD", &base, &[&EARLY, &[P2, record, LONGER]]);
    }
}
