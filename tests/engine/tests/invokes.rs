//! Writing invokes.

use std::collections::HashMap;

use engine::board::LinkId;
use engine::component::Operation;
use engine::invoke::{Invoke, InvokeId};
use engine::notice_component::further;
use engine::notice_invoke::{holds, rewritten};
use engine::records::{element, execute, explicit, invoke, link_request, object};
use engine::tally::Tally;

const OPERATIONS: [Operation; 3] =
    [Operation::Execute, Operation::Explicit(LinkId(-129)), Operation::LinkRequest];

fn of(identifier: i16, operation: Operation) -> Invoke {
    Invoke { identifier: InvokeId(identifier), operation }
}

/// The octets written into a buffer of that length; what lies beyond them is kept.
fn written_into(length: usize, invoke: &Invoke) -> Vec<u8> {
    let before: Vec<u8> = (0..length).map(|place| 0xC1 ^ place as u8).collect();
    let mut buffer = before.clone();
    let count = invoke.write(&mut buffer).expect("refused");
    assert_eq!(buffer[count..], before[count..], "{invoke:?}");
    buffer.truncate(count);
    buffer
}

fn written(invoke: &Invoke) -> Vec<u8> {
    written_into(32, invoke)
}

/// So many octets of contents a value takes.
fn octets(value: i16) -> usize {
    if (-128..=127).contains(&value) {
        1
    } else {
        2
    }
}

#[test]
fn short_buffers_are_refused_and_kept() {
    for operation in OPERATIONS {
        for identifier in [i16::MIN, -1, 0, i16::MAX] {
            for length in 0..32 {
                let before: Vec<u8> = (0..length).map(|place| 0x35 ^ place).collect();
                let mut buffer = before.clone();
                assert_eq!(of(identifier, operation).write(&mut buffer), Err(1));
                assert_eq!(buffer, before);
            }
        }
    }
}

#[test]
fn longer_buffers_are_written_in_front() {
    for operation in OPERATIONS {
        for identifier in [i16::MIN, -1, 0, i16::MAX] {
            let invoke = of(identifier, operation);
            let octets = written_into(32, &invoke);
            for length in [33, 64, 127, 128, 300] {
                assert_eq!(written_into(length, &invoke), octets);
            }
        }
    }
}

#[test]
fn octets_of_each_operation() {
    let identifiers: [(i16, &[u8]); 8] = [
        (-32768, &[0x02, 0x02, 0x80, 0x00]),
        (-129, &[0x02, 0x02, 0xFF, 0x7F]),
        (-128, &[0x02, 0x01, 0x80]),
        (-1, &[0x02, 0x01, 0xFF]),
        (0, &[0x02, 0x01, 0x00]),
        (127, &[0x02, 0x01, 0x7F]),
        (128, &[0x02, 0x02, 0x00, 0x80]),
        (32767, &[0x02, 0x02, 0x7F, 0xFF]),
    ];
    for (value, identifier) in identifiers {
        let component = |behind: &[u8]| {
            let length = (identifier.len() + behind.len()) as u8;
            [&[0xA1, length], identifier, behind].concat()
        };
        assert_eq!(written(&of(value, Operation::Execute)), component(&[0x02, 0x01, 0x06]));
        let request = [0x06, 0x06, 0x04, 0x00, 0x82, 0x71, 0x01, 0x04];
        assert_eq!(written(&of(value, Operation::LinkRequest)), component(&request));
        for (link, argument) in identifiers {
            let named = [0x06, 0x06, 0x04, 0x00, 0x82, 0x71, 0x01, 0x01];
            let expected = component(&[&named, argument].concat());
            assert_eq!(written(&of(value, Operation::Explicit(LinkId(link)))), expected);
        }
    }
    let longest = written(&of(i16::MIN, Operation::Explicit(LinkId(i16::MAX))));
    assert_eq!((longest.len(), longest[1]), (18, 16));
    let shortest = written(&of(0, Operation::Execute));
    assert_eq!(shortest, [0xA1, 6, 2, 1, 0, 2, 1, 6]);
}

#[test]
fn every_identifier_is_read_back() {
    for operation in OPERATIONS {
        let rest = written(&of(0, operation)).len() - 1;
        for value in i16::MIN..=i16::MAX {
            let invoke = of(value, operation);
            let component = written(&invoke);
            assert_eq!(Invoke::read(&component), Some(invoke));
            assert_eq!(component.len(), rest + octets(value), "{invoke:?}");
        }
    }
}

#[test]
fn every_link_id_is_read_back() {
    for identifier in [-32768, -129, -128, -1, 0, 127, 128, 32767] {
        for value in i16::MIN..=i16::MAX {
            let invoke = of(identifier, Operation::Explicit(LinkId(value)));
            let component = written(&invoke);
            assert_eq!(Invoke::read(&component), Some(invoke));
            assert_eq!(component.len(), 14 + octets(identifier) + octets(value), "{invoke:?}");
        }
    }
}

/// All elements with tag 02 and one or two octets, padded ones too.
fn integers() -> Vec<Vec<u8>> {
    let one = (0..=255).map(|octet| element(2, &[octet]));
    let two = (0..=u16::MAX).map(|octets| element(2, &octets.to_be_bytes()));
    one.chain(two).collect()
}

/// Components that vary in one integer, the others being short, at the borders or padded; and such
/// that differ from an invoke in one octet.
fn components() -> Vec<Vec<u8>> {
    let some: [&[u8]; 6] = [
        &[2, 1, 5],
        &[2, 1, 0x80],
        &[2, 2, 0, 0x80],
        &[2, 2, 0xFF, 0x7F],
        &[2, 2, 0, 5],
        &[2, 2, 0xFF, 0x80],
    ];
    let mut list = Vec::new();
    for integer in integers() {
        list.extend([execute(&integer), link_request(&integer)]);
        for other in some {
            list.push(invoke(&[other, &integer]));
            list.extend([explicit(&integer, other), explicit(other, &integer)]);
        }
    }
    for invoke in some.iter().flat_map(|link| [execute(link), link_request(link), explicit(link, link)]) {
        for place in 0..invoke.len() {
            list.extend((0..=255).map(|octet| [&invoke[..place], &[octet], &invoke[place + 1..]].concat()));
        }
    }
    list
}

/// Two different strings of octets with nothing behind the last element looked at are never read as
/// the same invoke, and each is what is written for the invoke.
#[test]
fn no_two_are_read_as_the_same_invoke() {
    let mut read_from: HashMap<Invoke, Vec<u8>> = HashMap::new();
    for component in components() {
        let Some(invoke) = Invoke::read(&component) else { continue };
        if !further(&component, invoke.operation).is_empty() {
            continue;
        }
        assert_eq!(written(&invoke), component);
        let first = read_from.entry(invoke).or_insert_with(|| component.clone());
        assert_eq!(*first, component, "{invoke:?}");
    }
    // Every identifier with EctExecute and EctLinkIdRequest; every identifier with four LinkIds, every
    // LinkId with four identifiers. What differs in one octet adds a few, which vary in both.
    let of = |test: fn(&Operation) -> bool| read_from.keys().filter(|key| test(&key.operation)).count();
    assert_eq!(of(|operation| *operation == Operation::Execute), 65_536);
    assert_eq!(of(|operation| *operation == Operation::LinkRequest), 65_536);
    assert!(of(|operation| matches!(operation, Operation::Explicit(_))) >= 8 * 65_536 - 16);
}

#[test]
fn further_elements_are_not_written() {
    let identifier: &[u8] = &[2, 1, 5];
    let six: &[u8] = &[2, 1, 6];
    let expected = [0xA1, 6, 2, 1, 5, 2, 1, 6];
    for component in [
        invoke(&[identifier, six]),
        invoke(&[identifier, six, &[2, 2, 0, 5]]),
        invoke(&[identifier, six, &[2, 1, 0]]),
        invoke(&[identifier, six, &[5, 0]]),
        invoke(&[identifier, six, &element(4, &[7; 22])]),
    ] {
        assert_eq!(written(&Invoke::read(&component).unwrap()), expected, "{component:02x?}");
        assert_eq!(rewritten(&component, &mut Tally::default()), Ok(()));
    }
    // An integer behind an EctLinkIdRequest is no argument.
    let component = invoke(&[identifier, &object(4), &[2, 1, 1]]);
    assert_eq!(written(&Invoke::read(&component).unwrap()), link_request(identifier));
    assert_eq!(rewritten(&component, &mut Tally::default()), Ok(()));
}

/// What is no invoke is not written again.
#[test]
fn only_invokes() {
    for component in [&[0xA2u8, 3, 2, 1, 5] as &[u8], &[0xA1, 3, 2, 1, 5], &[0xA1, 6, 2, 1, 5, 2, 1, 7], &[]]
    {
        assert_eq!(Invoke::read(component), None);
        assert_eq!(rewritten(component, &mut Tally::default()), Ok(()));
    }
}

/// What no writer may give is a fault in the logs.
#[test]
fn wrong_octets_are_a_fault() {
    let said = |component: &[u8], written: &[u8], words: &str| {
        let fault = holds(component, &Invoke::read(component).unwrap(), written).unwrap_err();
        assert!(fault.contains(words), "{fault}");
    };
    let short = [0xA1, 6, 2, 1, 0xFF, 2, 1, 6];
    let long = [0xA1, 8, 2, 1, 0xFF, 2, 1, 6, 5, 0];
    let padded = [0xA1, 7, 2, 2, 0xFF, 0xFF, 2, 1, 6];
    let unsigned = [0xA1, 7, 2, 2, 0, 0xFF, 2, 1, 6];
    for component in [&short as &[u8], &long] {
        said(component, &unsigned, "read as Some");
        said(component, &padded, "read as None");
        said(component, &[0xA1, 7, 2, 1, 0xFF, 2, 1, 6], "read as None");
        said(component, &link_request(&[2, 1, 0xFF]), "read as Some");
    }
    said(&short, &long, "not the octets that were read");
    said(&long, &long, "not shorter");
    let invoke = Invoke::read(&long).unwrap();
    assert_eq!(holds(&short, &invoke, &short), Ok(()));
    assert_eq!(holds(&long, &invoke, &short), Ok(()));
}
