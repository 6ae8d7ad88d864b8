//! Reading components.

mod common;

use common::{error, Desk, DONE, ID, NOT_ASSIGNED};
use engine::board::LinkId;
use engine::component::{read, take, Operation, Reading, EXPLICIT, LINK_REQUEST};
use engine::records::{element, execute, explicit, invoke, object};

/// Integers that are padded, those at the borders among them.
const PADDED: [&[u8]; 6] =
    [&[2, 2, 0, 0], &[2, 2, 0, 5], &[2, 2, 0, 6], &[2, 2, 0, 0x7F], &[2, 2, 0xFF, 0x80], &[2, 2, 0xFF, 0xFF]];

/// The Reply to a component, asked on a single call.
fn reply(component: &[u8]) -> Vec<u8> {
    let mut desk = Desk::new(1, 1);
    desk.call(1, 0, 10, 0);
    desk.ask(1, component)
}

fn general_null(problem: u8) -> Vec<u8> {
    vec![0xA4, 5, 5, 0, 0x80, 1, problem]
}

fn with_id(sort: u8, problem: u8) -> Vec<u8> {
    vec![0xA4, 6, 2, 1, 5, sort, 1, problem]
}

#[test]
fn results_errors_and_rejects_are_accepted() {
    for first in [0xA2, 0xA3, 0xA4] {
        assert!(reply(&[first]).is_empty());
        assert!(reply(&[first, 0xFF, 0x1F]).is_empty());
    }
}

#[test]
fn first_octet() {
    for first in (0..=255).filter(|first| !(0xA1..=0xA4).contains(first)) {
        assert_eq!(reply(&[first]), general_null(0));
        assert_eq!(reply(&[first, 3, 2, 1, 5]), general_null(0));
    }
}

#[test]
fn outer_length() {
    assert_eq!(reply(&[0xA1]), general_null(2));
    assert_eq!(reply(&[0xA1, 1]), general_null(2));
    assert_eq!(reply(&[0xA1, 0x80]), general_null(2));
    assert_eq!(reply(&[0xA1, 5, 2, 1, 5, 2, 1, 6]), general_null(2));
    assert_eq!(reply(&[0xA1, 7, 2, 1, 5, 2, 1, 6]), general_null(2));
    assert_eq!(reply(&[0xA1, 0]), general_null(1));
}

#[test]
fn broken_elements() {
    for further in [
        &[4u8] as &[u8],
        &[4, 1],
        &[0x1F, 0],
        &[0x3F, 0],
        &[0xDF, 0],
        &[4, 0x80],
        &[4, 0x81, 1, 0],
        &[0x30, 1, 4],
        &[0x30, 2, 4, 1],
        &[0x30, 2, 0x1F, 0],
    ] {
        assert_eq!(reply(&invoke(&[ID, &[2, 1, 6], further])), general_null(2), "{further:02x?}");
    }
    // Broken inside a primitive element is nobody's concern.
    assert_eq!(reply(&invoke(&[ID, &[2, 1, 6], &[4, 2, 0x1F, 9]])), error(7));
}

fn nested(depth: usize, inner: &[u8]) -> Vec<u8> {
    (1..depth).fold(inner.to_vec(), |inner, _| element(0x30, &inner))
}

#[test]
fn depth() {
    for inner in [&[5u8, 0] as &[u8], &[0x30, 0], &[2, 1, 9]] {
        assert_eq!(reply(&invoke(&[ID, &[2, 1, 6], &nested(4, inner)])), error(7));
        assert_eq!(reply(&invoke(&[ID, &[2, 1, 6], &nested(5, inner)])), general_null(2));
    }
}

#[test]
fn identifiers() {
    for bad in [&[] as &[u8], &[2, 0], &[2, 3, 0, 0, 5], &[0x80, 1, 5], &[0x22, 0], &[6, 1, 5]] {
        assert_eq!(reply(&invoke(&[bad, &object(LINK_REQUEST)])), general_null(1), "{bad:02x?}");
    }
    for good in [&[2u8, 1, 0x80] as &[u8], &[2, 2, 0, 0x80], &[2, 2, 0xFF, 0x7F], &[2, 2, 0x12, 0x34]] {
        let mut expected = vec![0xA3, good.len() as u8 + 3];
        expected.extend(good);
        expected.extend([2, 1, 7]);
        assert_eq!(reply(&execute(good)), expected);
    }
}

#[test]
fn second_element() {
    for bad in [&[] as &[u8], &[2, 0], &[2, 3, 0, 0, 6], &[6, 0], &[0x80, 1, 6], &[0x26, 3, 6, 1, 4]] {
        assert_eq!(reply(&invoke(&[ID, bad])), with_id(0x80, 1), "{bad:02x?}");
    }
}

#[test]
fn operations() {
    for unknown in [
        &[2u8, 1, 5] as &[u8],
        &[2, 1, 0x86],
        &[2, 2, 1, 6],
        &[2, 2, 6, 0],
        &[2, 2, 0xFF, 6],
        &[2, 2, 0, 0x80],
        &[2, 2, 0xFF, 0x7F],
        &[6, 1, 6],
        &object(0),
        &object(2),
        &object(5),
        &object(0x15),
        &[6, 5, 4, 0, 0x82, 0x71, 1],
        &[6, 6, 4, 0, 0x82, 0x71, 2, 1],
        &[6, 7, 4, 0, 0x82, 0x71, 1, 4, 0],
    ] {
        assert_eq!(reply(&invoke(&[ID, unknown, &[2, 1, 0]])), with_id(0x81, 1), "{unknown:02x?}");
    }
}

#[test]
fn argument_of_explicit() {
    for bad in [&[] as &[u8], &[2, 0], &[2, 3, 0, 0, 0], &[5, 0], &[0x0A, 1, 0], &[0x30, 3, 2, 1, 0]] {
        assert_eq!(reply(&invoke(&[ID, &object(EXPLICIT), bad])), with_id(0x81, 2), "{bad:02x?}");
        assert_eq!(reply(&invoke(&[ID, &object(EXPLICIT), bad, &[5, 0]])), with_id(0x81, 2));
    }
}

#[test]
fn link_ids_are_signed() {
    for (octets, value) in [
        (&[2u8, 1, 0xFF] as &[u8], -1),
        (&[2, 2, 0, 0xFF], 255),
        (&[2, 2, 0, 0x80], 128),
        (&[2, 2, 1, 0], 256),
        (&[2, 2, 0xFE, 0xFF], -257),
        (&[2, 2, 0x7F, 0xFF], 32767),
        (&[2, 1, 0x80], -128),
        (&[2, 2, 0x80, 0], -32768),
        (&[2, 1, 0x7F], 127),
        (&[2, 2, 0xFF, 0x7F], -129),
    ] {
        let component = invoke(&[ID, &object(EXPLICIT), octets]);
        let operation = Operation::Explicit(LinkId(value));
        assert_eq!(read(&component), Reading::Invoke { identifier: ID, operation });
    }
}

/// The form comes before the value, in each place; what stands behind does not matter.
#[test]
fn padded_integers() {
    for padded in PADDED {
        for behind in [&[] as &[u8], &[2, 1, 0], padded] {
            assert_eq!(reply(&invoke(&[padded, &[2, 1, 6], behind])), general_null(1), "{padded:02x?}");
            assert_eq!(reply(&invoke(&[padded, padded, behind])), general_null(1), "{padded:02x?}");
            assert_eq!(reply(&invoke(&[ID, padded, behind])), with_id(0x80, 1), "{padded:02x?}");
            let component = invoke(&[ID, &object(EXPLICIT), padded, behind]);
            assert_eq!(reply(&component), with_id(0x81, 2), "{padded:02x?}");
        }
    }
}

#[test]
fn padded_integers_are_rejected_before_error_0() {
    let mut desk = Desk::new(0, 1);
    desk.call(1, 0, 10, 0);
    for padded in PADDED {
        assert_eq!(desk.ask(1, &execute(padded)), general_null(1));
        assert_eq!(desk.ask(1, &invoke(&[ID, padded])), with_id(0x80, 1));
        assert_eq!(desk.ask(1, &explicit(ID, padded)), with_id(0x81, 2));
    }
}

/// Whether all 65,792 contents of one and two octets are an integer, and which.
#[test]
fn every_integer() {
    let value_of = |contents: &[u8]| take(&element(2, contents)).unwrap().0.integer();
    for value in i16::MIN..=i16::MAX {
        let one_octet = (-128..=127).contains(&value);
        assert_eq!(value_of(&value.to_be_bytes()), (!one_octet).then_some(value));
        if one_octet {
            assert_eq!(value_of(&[value as u8]), Some(value));
        }
    }
}

#[test]
fn further_elements_are_passed_over() {
    let mut desk = Desk::new(1, 1);
    desk.call(1, 0, 10, 2);
    desk.call(2, 1, 10, 0);
    let component = invoke(&[ID, &[2, 1, 6], &[2, 0], &[0x30, 3, 6, 1, 9], &[0, 0]]);
    assert_eq!(desk.ask(1, &component), DONE);
}

#[test]
fn padded_integers_are_passed_over() {
    for padded in PADDED {
        let inside = element(0x30, &element(0xA0, padded));
        for further in [padded.to_vec(), inside.clone(), [&inside, padded].concat()] {
            assert_eq!(reply(&invoke(&[ID, &[2, 1, 6], &further])), error(7));
            let explicit = invoke(&[ID, &object(EXPLICIT), &[2, 1, 9], &further]);
            assert_eq!(reply(&explicit), NOT_ASSIGNED);
            assert_eq!(reply(&invoke(&[ID, &object(LINK_REQUEST), &further]))[..5], [0xA2, 16, 2, 1, 5]);
            assert_eq!(reply(&invoke(&[ID, &[2, 1, 5], &further])), with_id(0x81, 1));
        }
    }
}

#[test]
fn component_of_32_octets() {
    let further = element(4, &[7; 22]);
    let component = invoke(&[ID, &[2, 1, 6], &further]);
    assert_eq!(component.len(), 32);
    assert_eq!(reply(&component), error(7));
}
