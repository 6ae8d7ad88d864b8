//! The published codings: the list that the product's program `codings` reads is held to the engine too, and what
//! that program has to print is held to the list.

use std::fs;

use engine::board::LinkId;
use engine::component::{read, Operation, Reading, LINK_REQUEST};
use engine::invoke::{Invoke, InvokeId, ROOM};
use engine::notice_invoke::rewritten;
use engine::records::{self, element, execute, explicit};
use engine::reply::Component;
use engine::tally::Tally;

const NULL: &[u8] = &[0x05, 0x00];
const GENERAL: u8 = 0x80;
const INVOKE: u8 = 0x81;

struct Coding {
    octets: Vec<u8>,
    what: String,
    line: String,
}

fn file(name: &str) -> String {
    let path = format!("{}/../../crates/codings/{name}", env!("CARGO_MANIFEST_DIR"));
    fs::read_to_string(&path).unwrap_or_else(|error| panic!("{path}: {error}"))
}

/// Pairs of lower-case hex digits.
fn octets(hex: &str) -> Vec<u8> {
    let digit = |c: u8| match c {
        b'0'..=b'9' => c - b'0',
        b'a'..=b'f' => c - b'a' + 10,
        _ => panic!("{hex}: not lower-case hex"),
    };
    assert!(!hex.is_empty() && hex.len().is_multiple_of(2), "{hex}: not pairs of digits");
    hex.as_bytes().chunks(2).map(|pair| digit(pair[0]) * 16 + digit(pair[1])).collect()
}

fn list() -> Vec<Coding> {
    let coding = |line: &str| match line.split(" ; ").collect::<Vec<_>>().as_slice() {
        [hex, what, source] if !source.is_empty() => {
            Coding { octets: octets(hex), what: what.to_string(), line: line.to_string() }
        }
        _ => panic!("{line}: not three fields"),
    };
    file("stdin").lines().filter(|line| !line.is_empty() && !line.starts_with('#')).map(coding).collect()
}

/// The identifier as a whole element.
fn identifier(hex: &str) -> Vec<u8> {
    let contents = octets(hex);
    [&[0x02, contents.len() as u8], contents.as_slice()].concat()
}

fn number<N: std::str::FromStr>(decimal: &str) -> N {
    decimal.parse().unwrap_or_else(|_| panic!("{decimal}: not a number of this size"))
}

/// Identifier, sort and problem of a Reject.
fn reject(words: &[&str]) -> Option<(Vec<u8>, u8, u8)> {
    match words {
        ["null", problem] => Some((NULL.to_vec(), GENERAL, number(problem))),
        ["general", id, problem] => Some((identifier(id), GENERAL, number(problem))),
        ["invoke", id, problem] => Some((identifier(id), INVOKE, number(problem))),
        _ => None,
    }
}

/// Whether the octets are read as these words say; none where the words say nothing.
fn is_read(octets: &[u8], words: &[&str]) -> Option<bool> {
    let reading = read(octets);
    let invoked = |id: &str, operation| reading == Reading::Invoke { identifier: &identifier(id), operation };
    match words {
        ["ignored"] => Some(reading == Reading::Nothing),
        ["invoke", id, "EctExecute"] => Some(invoked(id, Operation::Execute)),
        ["invoke", id, "ExplicitEctExecute", link] => {
            Some(invoked(id, Operation::Explicit(LinkId(number(link)))))
        }
        ["invoke", id, "EctLinkIdRequest"] => Some(invoked(id, Operation::LinkRequest)),
        ["reject", words @ ..] => {
            let (identifier, sort, problem) = reject(words)?;
            Some(reading == Reading::Reject { identifier: &identifier, sort, problem })
        }
        _ => None,
    }
}

/// The answer that these words name.
fn answer(words: &[&str]) -> Option<Component> {
    match words {
        ["result", id] => Some(Component::result(&identifier(id))),
        ["linkid", id, link] => {
            Some(Component::link_result(&identifier(id), LINK_REQUEST, LinkId(number(link))))
        }
        ["error", id, error] => Some(Component::error(&identifier(id), number(error))),
        ["notassigned", id] => Some(Component::not_assigned(&identifier(id))),
        ["reject", words @ ..] => {
            let (identifier, sort, problem) = reject(words)?;
            Some(Component::reject(&identifier, sort, problem))
        }
        _ => None,
    }
}

/// The invoke that these words name.
fn invoke(words: &[&str]) -> Option<Invoke> {
    let (identifier, operation) = match words {
        [id, "EctExecute"] => (id, Operation::Execute),
        [id, "ExplicitEctExecute", link] => (id, Operation::Explicit(LinkId(number(link)))),
        [id, "EctLinkIdRequest"] => (id, Operation::LinkRequest),
        _ => return None,
    };
    Some(Invoke { identifier: InvokeId(number(identifier)), operation })
}

/// Whether the writer gives these octets for the invoke, and they are read as the same.
fn is_written(octets: &[u8], invoke: Invoke) -> bool {
    let mut buffer = [0; ROOM];
    let count = invoke.write(&mut buffer).expect("refused");
    buffer[..count] == *octets && Invoke::read(octets) == Some(invoke)
}

#[test]
fn engine_agrees_with_each_coding() {
    for Coding { octets, what, line } in list() {
        let words: Vec<&str> = what.split(' ').collect();
        let agrees = match words.as_slice() {
            ["answer", words @ ..] => answer(words).map(|component| component.octets() == octets),
            ["written", words @ ..] => invoke(words).map(|invoke| is_written(&octets, invoke)),
            words => is_read(&octets, words),
        };
        assert_eq!(agrees, Some(true), "{line}");
        assert_eq!(rewritten(&octets, &mut Tally::default()), Ok(()), "{line}");
    }
}

/// Each operation is listed with the identifiers where sign or length changes, and such LinkIds too.
#[test]
fn written_invokes_are_listed() {
    let listed: Vec<String> = list().into_iter().map(|coding| coding.what).collect();
    let borders = [-32768, -129, -128, -1, 0, 127, 128, 32767];
    for number in borders {
        for name in ["EctExecute", "ExplicitEctExecute", "EctLinkIdRequest"] {
            let found = listed.iter().any(|what| what.starts_with(&format!("written {number} {name}")));
            assert!(found, "written {number} {name}");
        }
        let link = format!(" ExplicitEctExecute {number}");
        assert!(listed.iter().any(|what| what.starts_with("written ") && what.ends_with(&link)), "{link}");
    }
}

/// Two padded integers and the two next to them are listed as identifier, as operation and as LinkId.
#[test]
fn padded_integers_are_listed() {
    let listed: Vec<Vec<u8>> = list().into_iter().map(|coding| coding.octets).collect();
    let id: &[u8] = &[0x02, 0x01, 0x05];
    for contents in [[0x00, 0x05], [0xFF, 0x80], [0x00, 0x80], [0xFF, 0x7F]] {
        let integer = element(0x02, &contents);
        for component in [execute(&integer), records::invoke(&[id, &integer]), explicit(id, &integer)] {
            assert!(listed.contains(&component), "{component:02x?}");
        }
    }
}

/// What the program has to print is the list's first two fields, and then how many codings there are.
#[test]
fn program_has_to_print_each_coding() {
    let list = list();
    let text = file("stdout");
    let (codings, last) = text.trim_end_matches('\n').rsplit_once('\n').expect("no codings");
    for (Coding { line, .. }, printed) in list.iter().zip(codings.lines()) {
        assert_eq!(line.rsplit_once(" ; ").map(|(fields, _)| fields), Some(printed));
    }
    assert_eq!(codings.lines().count(), list.len());
    assert_eq!(last, format!("{} codings", list.len()));
}
