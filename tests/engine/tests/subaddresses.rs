//! Reading a SubaddressTransfer invoke: each form, and arguments that miss one.

mod common;

use common::ID;
use engine::carrier::Carrier;
use engine::notice_miss::{reason, Reason};
use engine::notice_miss_subaddress::argument;
use engine::places;
use engine::records::{element, subaddress_transfer};
use engine::seen_leg::LegSeen;
use engine::subaddress::is_transfer;

const ONE: &[u8] = &[0x04, 0x01, 0x37];
const FLAG: &[u8] = &[0x01, 0x01, 0xFF];

/// Read by elements and by places, which have to agree.
fn right(component: &[u8]) -> bool {
    let right = is_transfer(component);
    assert_eq!(places::subaddress(component), right, "{component:02x?}");
    right
}

fn with(argument: &[u8]) -> Vec<u8> {
    subaddress_transfer(ID, argument)
}

/// The three forms of an argument with that subaddress.
fn forms(subaddress: &[u8]) -> [Vec<u8>; 3] {
    let plain = element(0x04, subaddress);
    [plain.clone(), element(0x30, &plain), element(0x30, &[&plain, FLAG].concat())]
}

#[test]
fn each_form_and_length() {
    let identifiers: [&[u8]; 6] =
        [ID, &[2, 1, 0], &[2, 1, 0x80], &[2, 2, 0, 0x80], &[2, 2, 0xFF, 0x7F], &[2, 2, 0x80, 0]];
    for identifier in identifiers {
        for length in 0..=30 {
            for argument in forms(&[0x1F; 30][..length]) {
                let component = subaddress_transfer(identifier, &argument);
                assert_eq!(right(&component), (1..=20).contains(&length), "{component:02x?}");
            }
        }
    }
}

#[test]
fn octets_of_any_value() {
    for octet in 0..=255 {
        for argument in forms(&[octet; 3]) {
            assert!(right(&with(&argument)));
        }
        assert!(right(&with(&element(0x30, &[ONE, &[0x01, 0x01, octet]].concat()))));
    }
}

#[test]
fn shortest_and_longest() {
    assert_eq!(with(ONE).len(), 16);
    let [.., longest] = forms(&[0xFF; 20]);
    let longest = subaddress_transfer(&[2, 2, 0x12, 0x34], &longest);
    assert_eq!(longest.len(), 41);
    assert!(right(&longest));
}

/// No other octet will do but in the identifier, the subaddress and the 01.
#[test]
fn each_octet_changed() {
    for (form, argument) in forms(&[0x55; 19]).iter().enumerate() {
        let component = with(argument);
        let first = if form == 0 { 15 } else { 17 };
        let last = component.len() - 1;
        for place in 0..component.len() {
            let free = place == 4 || (first..first + 19).contains(&place) || (form == 2 && place == last);
            for octet in (0..=255).filter(|&octet| octet != component[place]) {
                let mut changed = component.clone();
                changed[place] = octet;
                assert_eq!(right(&changed), free, "place {place}: {changed:02x?}");
            }
        }
    }
}

#[test]
fn each_count_but_its_own() {
    for argument in forms(&[0; 20]) {
        let mut octets = with(&argument);
        let count = octets.len();
        octets.resize(64, 0);
        for other in (0..=64).filter(|&other| other != count) {
            assert!(!right(&octets[..other]));
            if other > 2 {
                let mut fitting = octets.clone();
                fitting[1] = other as u8 - 2;
                assert!(!right(&fitting[..other]), "{other}");
            }
        }
    }
}

/// The argument of each is wrong for the one reason named.
fn holds(misses: &[(Vec<u8>, Option<LegSeen>)]) {
    for (component, seen) in misses {
        assert!(component.len() <= 64);
        assert!(!right(component), "{component:02x?}");
        let Reason::Argument(element) = reason(Carrier::LegFacility, component, None) else {
            panic!("{component:02x?}")
        };
        assert_eq!(argument(&element), *seen, "{component:02x?}");
    }
}

#[test]
fn arguments() {
    holds(&[
        (with(&[4, 0]), Some(LegSeen::Argument0)),
        (with(&element(4, &[7; 21])), Some(LegSeen::Argument21)),
        (with(&element(4, &[7; 22])), Some(LegSeen::ArgumentLonger)),
        (with(&element(4, &[7; 48])), Some(LegSeen::ArgumentLonger)),
        (with(&element(0x24, ONE)), Some(LegSeen::Argument24)),
        (with(&[0x0C, 1, 0x37]), Some(LegSeen::ArgumentTag)),
        (with(&[0x84, 1, 0x37]), Some(LegSeen::ArgumentTag)),
        (with(&element(0x31, ONE)), Some(LegSeen::SequenceTag)),
        (with(&element(0xA0, &[ONE, FLAG].concat())), Some(LegSeen::SequenceTag)),
        (with(&[5, 0]), None),
        (with(FLAG), Some(LegSeen::ArgumentTag)),
    ]);
}

#[test]
fn sequences() {
    let of = |elements: &[&[u8]]| with(&element(0x30, &elements.concat()));
    let long = element(4, &[7; 21]);
    holds(&[
        (of(&[]), Some(LegSeen::SequenceEmpty)),
        (of(&[&[4, 0]]), Some(LegSeen::Sequence0)),
        (of(&[&[4, 0], FLAG]), Some(LegSeen::Sequence0)),
        (of(&[&long]), Some(LegSeen::Sequence21)),
        (of(&[&long, FLAG]), Some(LegSeen::Sequence21)),
        (of(&[&[0x0C, 1, 0x37]]), Some(LegSeen::SequenceInner)),
        (of(&[&[0x80, 1, 0x37], FLAG]), Some(LegSeen::SequenceInner)),
        (of(&[FLAG]), Some(LegSeen::SequenceFlagAlone)),
        (of(&[FLAG, ONE]), Some(LegSeen::SequenceFlagFirst)),
        (of(&[ONE, &[1, 0]]), Some(LegSeen::SequenceFlag0)),
        (of(&[ONE, &[1, 2, 0, 0]]), Some(LegSeen::SequenceFlag2)),
        (of(&[ONE, &[2, 1, 0]]), Some(LegSeen::SequenceFlagTag)),
        (of(&[ONE, FLAG, FLAG]), Some(LegSeen::SequenceTwoFlags)),
        (of(&[ONE, ONE]), Some(LegSeen::SequenceTwo04)),
        (of(&[ONE, FLAG, &[5, 0]]), Some(LegSeen::SequenceThird)),
        (of(&[ONE, FLAG, ONE]), Some(LegSeen::SequenceThird)),
        (of(&[ONE, ONE, FLAG]), None),
        (of(&[&element(0x30, ONE)]), Some(LegSeen::SequenceInner)),
    ]);
}
