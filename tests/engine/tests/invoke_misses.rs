//! Components that are not the invoke a Leg facility or an Inform asks for, for one reason outside the argument.

mod common;

use common::ID;
use engine::carrier::Carrier;
use engine::component::{EXPLICIT, LINK_REQUEST};
use engine::notice_miss::{reason, Reason};
use engine::places;
use engine::records::{element, execute, explicit, invoke, link_request, object, with_argument};
use engine::seen_carrier::CarrierSeen;

/// Read by elements and by places, which have to agree.
fn right(carrier: Carrier, component: &[u8]) -> bool {
    let by_place = match carrier {
        Carrier::LegFacility => places::subaddress(component),
        Carrier::Inform => places::inform(component).is_some(),
    };
    assert_eq!(carrier.is_right(component), by_place, "{component:02x?}");
    by_place
}

fn with(carrier: Carrier, argument: &[u8]) -> Vec<u8> {
    with_argument(carrier.operation(), ID, argument)
}

/// Each is no such invoke for the one reason named.
fn holds(carrier: Carrier, misses: &[(Vec<u8>, CarrierSeen)]) {
    for (component, seen) in misses {
        assert!(component.len() <= 64);
        assert!(!right(carrier, component), "{component:02x?}");
        because(carrier, component, None, *seen);
    }
}

fn because(carrier: Carrier, component: &[u8], left: Option<u8>, seen: CarrierSeen) {
    match reason(carrier, component, left) {
        Reason::Seen(found) => assert_eq!(found, seen, "{component:02x?}"),
        Reason::Argument(_) => panic!("{component:02x?}: argument"),
    }
}

#[test]
fn front() {
    for carrier in Carrier::BOTH {
        let good = with(carrier, carrier.argument());
        assert!(right(carrier, &good));
        let octet_at = |place: usize, octet: u8| {
            let mut component = good.clone();
            component[place] = octet;
            component
        };
        let mut long = good.clone();
        long.insert(1, 0x81);
        holds(
            carrier,
            &[
                (octet_at(0, 0xA2), CarrierSeen::FirstA2),
                (octet_at(0, 0xA3), CarrierSeen::FirstA3),
                (octet_at(0, 0xA4), CarrierSeen::FirstA4),
                (octet_at(0, 0xA5), CarrierSeen::FirstA5),
                (octet_at(0, 0x21), CarrierSeen::FirstOther),
                (octet_at(1, good[1] - 1), CarrierSeen::LengthSmall),
                (octet_at(1, good[1] + 1), CarrierSeen::LengthLarge),
                (long, CarrierSeen::LengthLong),
                ([good.as_slice(), &[0]].concat(), CarrierSeen::CountLarge),
                (vec![0xA1], CarrierSeen::Otherwise),
                (vec![0xA1, 0], CarrierSeen::Otherwise),
            ],
        );
    }
}

/// A count one too small leaves a 00 behind that belongs to the component.
#[test]
fn count() {
    let ends: [&[u8]; 2] = [&[4, 1, 0], &[0x30, 5, 0x0A, 1, 0, 0x81, 0]];
    for (carrier, argument) in Carrier::BOTH.into_iter().zip(ends) {
        let good = with(carrier, argument);
        let (_, cut) = good.split_last().unwrap();
        assert!(right(carrier, &good) && !right(carrier, cut));
        because(carrier, cut, Some(0), CarrierSeen::CountSmallZero);
    }
}

#[test]
fn identifiers() {
    for carrier in Carrier::BOTH {
        let of = |identifier: &[u8]| with_argument(carrier.operation(), identifier, carrier.argument());
        holds(
            carrier,
            &[
                (of(&[]), CarrierSeen::IdAbsent),
                (of(&[2, 0]), CarrierSeen::IdEmpty),
                (of(&[2, 3, 1, 2, 3]), CarrierSeen::IdThree),
                (of(&[2, 2, 0x00, 0x7F]), CarrierSeen::IdPadded00),
                (of(&[2, 2, 0xFF, 0x80]), CarrierSeen::IdPaddedFF),
                (of(&[5, 0]), CarrierSeen::IdTag),
                (of(&[0x80, 1, 5]), CarrierSeen::IdTag),
            ],
        );
    }
}

#[test]
fn operations() {
    for carrier in Carrier::BOTH {
        let (own, other) = (carrier.operation(), carrier.other());
        let of = |operation: &[u8]| invoke(&[ID, operation, carrier.argument()]);
        let object_of = |octets: &[u8]| element(6, octets);
        holds(
            carrier,
            &[
                (of(&[]), CarrierSeen::OperationAbsent),
                (of(&object(EXPLICIT)), CarrierSeen::Operation01),
                (of(&object(2)), CarrierSeen::Operation02),
                (of(&object(LINK_REQUEST)), CarrierSeen::Operation04),
                (of(&object(6)), CarrierSeen::Operation06),
                (of(&object(other.operation())), CarrierSeen::OperationOther),
                (of(&object(0)), CarrierSeen::OperationEnd),
                (of(&object_of(&[4, 0, 0x82, 0x71, 1])), CarrierSeen::OperationShort),
                (of(&object_of(&[4, 0, 0x82, 0x71, 1, own, 0])), CarrierSeen::OperationLong),
                (of(&object_of(&[4, 0, 0x82, 0x71, 2, own])), CarrierSeen::OperationElse),
                (of(&[2, 1, 6]), CarrierSeen::Local6),
                (of(&[2, 1, own]), CarrierSeen::LocalOwn),
                (of(&[2, 2, 0, own]), CarrierSeen::LocalElse),
                (of(&element(4, &[4, 0, 0x82, 0x71, 1, own])), CarrierSeen::OperationTag),
                (execute(ID), CarrierSeen::InvokeOfACall),
                (explicit(ID, &[2, 1, 0]), CarrierSeen::InvokeOfACall),
                (link_request(ID), CarrierSeen::InvokeOfACall),
                (with(other, other.argument()), CarrierSeen::InvokeOfOther),
                (with(carrier, &[]), CarrierSeen::ArgumentAbsent),
            ],
        );
    }
}

/// Behind each form of argument, and up to 64 octets in all.
#[test]
fn behind() {
    let plain: [&[u8]; 3] = [&[4, 1, 7], &[0x30, 3, 4, 1, 7], &[0x30, 6, 4, 1, 7, 1, 1, 0]];
    let informs: [&[u8]; 3] = [
        &[0x30, 3, 0x0A, 1, 0],
        &[0x30, 5, 0x0A, 1, 1, 0x81, 0],
        &[0x30, 8, 0x0A, 1, 1, 0xA0, 3, 0x80, 1, 0x37],
    ];
    let first: [&[u8]; 2] = [&[4, 1, 0x37], &[0x0A, 1, 0]];
    let second: [&[u8]; 2] = [&[1, 1, 0xFF], &[0xA0, 3, 0x80, 1, 0x37]];
    for (place, carrier) in Carrier::BOTH.into_iter().enumerate() {
        for argument in [plain, informs][place] {
            let of = |behind: &[u8]| with(carrier, &[argument, behind].concat());
            assert!(right(carrier, &of(&[])));
            let room = 64 - of(&[]).len() - 2;
            holds(
                carrier,
                &[
                    (of(&[5, 0]), CarrierSeen::Behind0500),
                    (of(&[0, 0]), CarrierSeen::Behind0000),
                    (of(first[place]), CarrierSeen::BehindFirst),
                    (of(second[place]), CarrierSeen::BehindSecond),
                    (of(&[2, 1, 0]), CarrierSeen::BehindElse),
                    (of(&[0x30, 0]), CarrierSeen::BehindElse),
                    (of(&element(0x0C, &vec![0; room])), CarrierSeen::BehindElse),
                    (of(&[second[place], &[5, 0]].concat()), CarrierSeen::BehindSeveral),
                ],
            );
        }
    }
}

#[test]
fn broken_elements() {
    let nested = (0..4).fold(vec![5, 0], |inner, _| element(0x30, &inner));
    for carrier in Carrier::BOTH {
        let argument = carrier.argument();
        let (_, cut) = argument.split_last().unwrap();
        let of = |argument: &[u8]| with(carrier, argument);
        let long = [&argument[..1], &[0x81], &argument[1..]].concat();
        let tag = [&[0x3F], &argument[1..]].concat();
        holds(
            carrier,
            &[
                (of(cut), CarrierSeen::BrokenCut),
                (of(&argument[..1]), CarrierSeen::BrokenCut),
                (of(&[argument, &[0x1F, 0]].concat()), CarrierSeen::BrokenTag),
                (of(&tag), CarrierSeen::BrokenTag),
                (of(&long), CarrierSeen::BrokenLength),
                (of(&[argument, &nested].concat()), CarrierSeen::BrokenDepth),
                (of(&element(0x30, &[&nested[2..], &nested].concat())), CarrierSeen::BrokenDepth),
            ],
        );
    }
}
