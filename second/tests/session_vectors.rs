//! A whole session whose commands and responses were computed with Python's `cryptography`:
//! session keys, cryptograms, both MAC chains, keys, PINs and bank information under the DEK.

mod support;

use second::purse::card::{KeySet, Set};
use second::purse::channel::{Challenges, SessionKeys};
use second::purse::session::Level;
use second::purse::{respond, Card, Session};
use second::terminal::Terminal;
use support::{bytes, hex, installation, keys};

struct Exchange {
    what: &'static str,
    random: &'static str,
    command: &'static str,
    response: &'static str,
}

#[rustfmt::skip]
const SESSION: &[Exchange] = &[
    Exchange {
        what: "SELECT, fresh",
        random: "0000000000000000",
        command: "00A4040007A0000001515001",
        response: "0000000000000000000000000000009000",
    },
    Exchange {
        what: "INITIALIZE UPDATE 3",
        random: "1112131415161718",
        command: "80500300080102030405060708",
        response: "00000000000000000000030111121314151617180B3B7219CD88311D9000",
    },
    Exchange {
        what: "EXTERNAL AUTHENTICATE level 01",
        random: "0000000000000000",
        command: "8482010010D8347BB6939D0B3A74A3753A5E6E2B01",
        response: "9000",
    },
    Exchange {
        what: "PUT KEY 1",
        random: "0000000000000000",
        command: "84D800013862E93BE87632DEF9FDAA2658D33A9C50C3237A7AC10D62D6FA31E11741BC00F5D92BEE57384D6D49D596B83E9F9D9C385C4C480BC473EC53",
        response: "9000",
    },
    Exchange {
        what: "PUT KEY 2",
        random: "0000000000000000",
        command: "84D8000238DB39820B0B0F967EEE960172261E2E066F63D02B9F9015C44A8896DAFAB2B539F59C74E36F8FC43BB728FB9708F283720DCAEBDF7E5A0417",
        response: "9000",
    },
    Exchange {
        what: "PIN CHANGE 1234",
        random: "0000000000000000",
        command: "8424000010CA6A75C834F68DC291CF693FDC34D26E",
        response: "9000",
    },
    Exchange {
        what: "STORE DATA",
        random: "0000000000000000",
        command: "84E28000380104000102030202097803021388040201F4050200640610C51C781501794B0A32E0BFCD93F333A70706A000000009014E3735230A8BA6E1",
        response: "9000",
    },
    Exchange {
        what: "GET DATA 06",
        random: "0000000000000000",
        command: "80CA0206",
        response: "1042414E4B2D303132333435363738392D9000",
    },
    Exchange {
        what: "INITIALIZE UPDATE 2",
        random: "F1F2F3F4F5F6F7F8",
        command: "80500200082122232425262728",
        response: "000000000000000000000201F1F2F3F4F5F6F7F8FC766768CDEF89E59000",
    },
    Exchange {
        what: "EXTERNAL AUTHENTICATE level 11",
        random: "0000000000000000",
        command: "848211001051526A2446D66E1A9E52D1C5215BB712",
        response: "9000",
    },
    Exchange {
        what: "VERIFY PIN wrong",
        random: "0000000000000000",
        command: "94200000084A47EF97440F6238",
        response: "6300",
    },
    Exchange {
        what: "VERIFY PIN right",
        random: "0000000000000000",
        command: "9420000008CA34A9CAA0C7E583",
        response: "9000",
    },
    Exchange {
        what: "INITIALIZE bank credit 1000",
        random: "0000000000000000",
        command: "944402000C097803E89717130D378257B4",
        response: "00010203B603FA9F5D5848D87B597FC6B1CA6698D6C7059E6C5B33539000",
    },
    Exchange {
        what: "COMPLETE",
        random: "0000000000000000",
        command: "9446000018C0C1C2C3C4C5C6C7C8C9CACBCCCDCECFD87E4BECF6068BFD",
        response: "0001020300010063097803E801F40FA000FB35F0C08F4E929000",
    },
    Exchange {
        what: "SELECT",
        random: "0000000000000000",
        command: "00A4040007A0000001515001",
        response: "00010203F00063097803E801F40FA09000",
    },
    Exchange {
        what: "INITIALIZE UPDATE 1",
        random: "0000000000000000",
        command: "80500100083132333435363738",
        response: "000000000000000000000101000000000000000011F15E11441449F99000",
    },
    Exchange {
        what: "EXTERNAL AUTHENTICATE level 11",
        random: "0000000000000000",
        command: "84821100104014C9C580E1BC535B69BB258C2836DD",
        response: "9000",
    },
    Exchange {
        what: "INITIALIZE debit 350",
        random: "0000000000000000",
        command: "944400000C0978015E2A70820414CB9794",
        response: "00010203344E7F05ADE3E1799000",
    },
    Exchange {
        what: "COMPLETE",
        random: "0000000000000000",
        command: "9446000018C0C1C2C3C4C5C6C7C8C9CACBCCCDCECFB9ECB986A20E0D63",
        response: "00010203000200620978028A01F410FEF5430197BB708D0C9000",
    },
    Exchange {
        what: "READ RECORD 1",
        random: "0000000000000000",
        command: "00B20104",
        response: "00020978FEA2028AC0C1C2C3C4C5C6C7C8C9CACBCCCDCECF019000",
    },
    Exchange {
        what: "READ RECORD 2",
        random: "0000000000000000",
        command: "00B20204",
        response: "0001097803E803E8C0C1C2C3C4C5C6C7C8C9CACBCCCDCECF029000",
    },
    Exchange {
        what: "INITIALIZE UPDATE 3",
        random: "FFFFFFFFFFFFFFFF",
        command: "80500300084142434445464748",
        response: "000000000000000000000301FFFFFFFFFFFFFFFFFC2D96BE095435699000",
    },
    Exchange {
        what: "EXTERNAL AUTHENTICATE level 11",
        random: "0000000000000000",
        command: "8482110010B2BDEAB578931E472B675816839F694A",
        response: "9000",
    },
    Exchange {
        what: "PUT KEY 3",
        random: "0000000000000000",
        command: "84D80003389E0B6A9584767A2DD46EEF80E53AC54B09872E0DECD97DD9A3BD73873552AF8929847275EB83D91F113270EEA2EA628B27DD2B273DBEB920",
        response: "9000",
    },
    Exchange {
        what: "PIN CHANGE 98765 under the new DEK",
        random: "0000000000000000",
        command: "8424000010BFD30C961BEA284DFBE4EBADC7B481FF",
        response: "9000",
    },
    Exchange {
        what: "PUT DATA 06 under the new DEK",
        random: "0000000000000000",
        command: "84DA02061856386A9A86D1C8CC71BD9A8D95F62DF7BB79AB664E583BE0",
        response: "9000",
    },
    Exchange {
        what: "GET DATA 06",
        random: "0000000000000000",
        command: "80CA0206",
        response: "10414E4F544845522042414E4B203132339000",
    },
    Exchange {
        what: "VERIFY PIN 98765",
        random: "0000000000000000",
        command: "9420000008BCDAB8298B11A1FC",
        response: "9000",
    },
    Exchange {
        what: "INITIALIZE bank credit 1",
        random: "0000000000000000",
        command: "944402000C097800019750E84D8A91F671",
        response: "0001020356386A9A86D1C8CC71BD9A8D95F62DF7E0437703FC4B5B769000",
    },
];

#[test]
fn whole_session() {
    let mut card = Card::install(&installation()).expect("data in range");
    let mut session = Session::default();
    for exchange in SESSION {
        let random = bytes(exchange.random).try_into().expect("8 bytes");
        let outcome = respond(&card, &session, &bytes(exchange.command), &random);
        assert_eq!(
            hex(&outcome.response),
            exchange.response,
            "{}",
            exchange.what
        );
        (card, session) = (outcome.card, outcome.session);
    }
}

fn challenges() -> Challenges {
    Challenges {
        host: [1, 2, 3, 4, 5, 6, 7, 8],
        card: [0x11, 0x12, 0x13, 0x14, 0x15, 0x16, 0x17, 0x18],
    }
}

fn admin() -> KeySet {
    KeySet::read(&keys(0x40)).expect("48 bytes")
}

#[test]
fn session_keys_and_cryptograms() {
    let derived = SessionKeys::derive(&admin(), &challenges());
    assert_eq!(hex(&derived.enc), "5DCE938392D360E73D172A540E65F627");
    assert_eq!(hex(&derived.mac), "668B98BA02E60015CC1F540A4A9C2185");
    assert_eq!(
        hex(&derived.card_cryptogram(&challenges())),
        "0B3B7219CD88311D"
    );
    assert_eq!(
        hex(&derived.host_cryptogram(&challenges())),
        "D8347BB6939D0B3A"
    );
}

/// The terminal builds the same EXTERNAL AUTHENTICATE and accepts the same card.
#[test]
fn terminal_side() {
    let mut terminal = Terminal::new(&admin(), Set::Admin, Level::Command, challenges());
    assert_eq!(hex(&terminal.card_cryptogram()), "0B3B7219CD88311D");
    let command = terminal.external_authenticate();
    assert_eq!(hex(&command), SESSION[2].command);
    assert_eq!(SESSION[2].what, "EXTERNAL AUTHENTICATE level 01");
}
