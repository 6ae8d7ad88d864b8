//! Reading an EctInform invoke: each form, and arguments that miss one.

mod common;

use common::ID;
use engine::board::{Number, UNKNOWN};
use engine::carrier::Carrier;
use engine::inform::{read, EctInform, Indication};
use engine::notice_miss::{reason, Reason};
use engine::notice_miss_inform::{argument, Wrong};
use engine::places;
use engine::records::{ect_inform, element};
use engine::reply::Told;
use engine::seen_inform::{InformSeen, NumberSeen};

const ACTIVE: &[u8] = &[0x0A, 1, 1];
const RESTRICTED: &[u8] = &[0x81, 0];
const ONE: &[u8] = &[0xA0, 3, 0x80, 1, 0x37];

/// Read by elements and by places, which have to agree.
fn told(component: &[u8]) -> Option<EctInform> {
    let told = read(component);
    let by_place = places::inform(component).map(|(active, digits)| EctInform {
        indication: if active == 1 { Indication::Active } else { Indication::Alerting },
        number: match digits {
            None => Told::Unknown,
            Some([]) => Told::Withheld,
            Some(digits) => Told::Given(UNKNOWN, Number::of(digits)),
        },
    });
    assert_eq!(told, by_place, "{component:02x?}");
    told
}

fn with(elements: &[&[u8]]) -> Vec<u8> {
    ect_inform(ID, &element(0x30, &elements.concat()))
}

fn given(digits: &[u8]) -> Vec<u8> {
    element(0xA0, &element(0x80, digits))
}

#[test]
fn each_form_and_number_of_digits() {
    let identifiers: [&[u8]; 6] =
        [ID, &[2, 1, 0], &[2, 1, 0x80], &[2, 2, 0, 0x80], &[2, 2, 0xFF, 0x7F], &[2, 2, 0x80, 0]];
    let digits = b"01234567890123456789";
    for identifier in identifiers {
        for (octet, indication) in [(0, Indication::Alerting), (1, Indication::Active)] {
            let of = |number: &[u8]| {
                told(&ect_inform(identifier, &element(0x30, &[&[0x0A, 1, octet], number].concat())))
            };
            assert_eq!(of(&[]), Some(EctInform { indication, number: Told::Unknown }));
            assert_eq!(of(RESTRICTED), Some(EctInform { indication, number: Told::Withheld }));
            for count in 0..=20 {
                let number = Some(&digits[..count]).filter(|_| (1..=15).contains(&count));
                let expected = number.map(|digits| Told::Given(UNKNOWN, Number::of(digits)));
                let found = of(&given(&digits[..count]));
                assert_eq!(found, expected.map(|number| EctInform { indication, number }), "{count}");
            }
        }
    }
}

#[test]
fn shortest_and_longest() {
    assert_eq!(with(&[ACTIVE]).len(), 18);
    let longest = ect_inform(&[2, 2, 0x12, 0x34], &element(0x30, &[ACTIVE, &given(&[b'9'; 15])].concat()));
    assert_eq!(longest.len(), 38);
    assert!(told(&longest).is_some());
}

/// No other octet will do but in the identifier, the indication and the digits.
#[test]
fn each_octet_changed() {
    for number in [Vec::new(), RESTRICTED.to_vec(), given(b"123456789012345")] {
        let component = with(&[ACTIVE, &number]);
        for place in 0..component.len() {
            for octet in (0..=255).filter(|&octet| octet != component[place]) {
                let mut changed = component.clone();
                changed[place] = octet;
                let free = match place {
                    4 => true,
                    17 => octet == 0,
                    22.. => octet.is_ascii_digit(),
                    _ => false,
                };
                assert_eq!(told(&changed).is_some(), free, "place {place}: {changed:02x?}");
            }
        }
    }
}

#[test]
fn each_count_but_its_own() {
    for number in [Vec::new(), RESTRICTED.to_vec(), given(b"00")] {
        let mut octets = with(&[ACTIVE, &number]);
        let count = octets.len();
        octets.resize(64, 0);
        for other in (0..=64).filter(|&other| other != count) {
            assert!(told(&octets[..other]).is_none());
            if other > 2 {
                let mut fitting = octets.clone();
                fitting[1] = other as u8 - 2;
                assert!(told(&fitting[..other]).is_none(), "{other}");
            }
        }
    }
}

/// Why the argument is wrong, where nothing else is.
fn why(component: &[u8]) -> Option<Wrong> {
    assert!(component.len() <= 64);
    assert_eq!(told(component), None);
    match reason(Carrier::Inform, component, None) {
        Reason::Argument(element) => argument(&element),
        Reason::Seen(seen) => panic!("{component:02x?}: {seen:?}"),
    }
}

#[test]
fn arguments() {
    let tagged = |tag: u8, elements: &[&[u8]]| ect_inform(ID, &element(tag, &elements.concat()));
    for number in [&[], RESTRICTED, ONE] {
        let misses = [
            (tagged(0x31, &[ACTIVE, number]), InformSeen::Tag31),
            (tagged(0x04, &[ACTIVE, number]), InformSeen::Tag04),
            (tagged(0xA0, &[ACTIVE, number]), InformSeen::TagElse),
            (with(&[ACTIVE, ACTIVE, number]), InformSeen::IndicationTwice),
            (with(&[&[0x02, 1, 1], number]), InformSeen::Indication02),
            (with(&[&[0x8A, 1, 0], number]), InformSeen::IndicationTag),
            (with(&[&[0x0A, 0], number]), InformSeen::IndicationEmpty),
            (with(&[&[0x0A, 2, 0, 1], number]), InformSeen::IndicationTwo),
            (with(&[&[0x0A, 1, 2], number]), InformSeen::IndicationValue2),
            (with(&[&[0x0A, 1, 0xFF], number]), InformSeen::IndicationValueFF),
            (with(&[&[0x0A, 1, 0x80], number]), InformSeen::IndicationValue),
        ];
        for (component, seen) in misses {
            assert_eq!(why(&component), Some(Wrong::Argument(seen)), "{component:02x?}");
        }
    }
    for (elements, seen) in [
        (&[] as &[&[u8]], InformSeen::Empty),
        (&[RESTRICTED], InformSeen::Alone81),
        (&[ONE], InformSeen::AloneA0),
        (&[RESTRICTED, ACTIVE], InformSeen::NumberFirst),
        (&[ONE, ACTIVE], InformSeen::NumberFirst),
    ] {
        assert_eq!(why(&with(elements)), Some(Wrong::Argument(seen)), "{elements:02x?}");
    }
    let several: [&[&[u8]]; 3] = [&[&[0x0A, 1, 2], &[5, 0]], &[&[2, 1, 2]], &[&[0x0A, 1, 0], ACTIVE]];
    for elements in several {
        assert_eq!(why(&with(elements)), None, "{elements:02x?}");
    }
}

/// Each number that is none, with the indication alerting too, though it would not be told.
fn wrong_numbers(misses: &[(Vec<u8>, NumberSeen)]) {
    for (number, seen) in misses {
        for (octet, indication) in [(0, Indication::Alerting), (1, Indication::Active)] {
            let component = with(&[&[0x0A, 1, octet], number]);
            assert_eq!(why(&component), Some(Wrong::Number(indication, *seen)), "{number:02x?}");
        }
    }
}

#[test]
fn numbers() {
    let held = |octets: &[u8]| element(0xA0, octets);
    let two = |one: &[u8], other: &[u8]| [one, other].concat();
    wrong_numbers(&[
        (vec![0x81, 1, 0], NumberSeen::Restricted1),
        (vec![0x81, 2, 0x31, 0x32], NumberSeen::RestrictedMore),
        (vec![0x80, 1, 0x37], NumberSeen::Digits80),
        (vec![0x80, 0], NumberSeen::Empty80),
        (element(0xA1, &ONE[2..]), NumberSeen::HoldingA1),
        (vec![0xA1, 0], NumberSeen::EmptyA1),
        (vec![5, 0], NumberSeen::Null),
        (element(0x30, &ONE[2..]), NumberSeen::Tag),
        (held(&[]), NumberSeen::EmptyA0),
        (held(&[0x81, 1, 0x37]), NumberSeen::Inner81),
        (held(&[0x82, 1, 0x37]), NumberSeen::Inner82),
        (held(&[0x12, 1, 0x37]), NumberSeen::InnerTag),
        (held(RESTRICTED), NumberSeen::Inner8100),
        (held(&two(&ONE[2..], &[0x80, 1, 0x38])), NumberSeen::InnerTwo),
        (held(&two(&ONE[2..], &[5, 0])), NumberSeen::InnerNull),
        (held(&two(&ONE[2..], RESTRICTED)), NumberSeen::InnerBehind),
        (held(ONE), NumberSeen::InnerDeeper),
        (two(RESTRICTED, RESTRICTED), NumberSeen::Twice81),
        (two(ONE, &given(b"12")), NumberSeen::TwiceA0),
        (two(RESTRICTED, ONE), NumberSeen::Both81First),
        (two(ONE, RESTRICTED), NumberSeen::BothA0First),
        (two(RESTRICTED, &[5, 0]), NumberSeen::NullBehind81),
        (two(ONE, &[5, 0]), NumberSeen::NullBehindA0),
        (two(ONE, &[0, 0]), NumberSeen::ElseBehind),
        (two(RESTRICTED, &[0x82, 0]), NumberSeen::ElseBehind),
    ]);
}

#[test]
fn digits() {
    wrong_numbers(&[
        (given(b""), NumberSeen::Digits0),
        (given(b"1234567890123456"), NumberSeen::Digits16),
        (given(b"12345678901234567"), NumberSeen::DigitsMore),
        (given(b"A"), NumberSeen::Letter),
        (given(b"12z4"), NumberSeen::Letter),
        (given(b"/1"), NumberSeen::Octet2F),
        (given(b"1:"), NumberSeen::Octet3A),
        (given(&[0x31, 0xB2]), NumberSeen::OctetElse),
        (given(&[0x31, 0x00]), NumberSeen::OctetElse),
    ]);
    for number in [given(b"1AB"), given(b"12345678901234567A"), [RESTRICTED, &[5, 0, 5, 0]].concat()] {
        assert_eq!(why(&with(&[ACTIVE, &number])), None);
    }
}
