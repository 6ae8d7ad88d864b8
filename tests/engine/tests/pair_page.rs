//! The page that verdicts are looked up on, held to the tables and to the numbers of the situations.

mod common;

use std::fs;

use common::calls;
use engine::board::{Aux, Call, CallState};
use engine::pair_table::{situation, table, Table, SITUATIONS};
use engine::rules::RuleSet;

fn page() -> String {
    let path = format!("{}/../../docs/PAIR-TABLE.md", env!("CARGO_MANIFEST_DIR"));
    fs::read_to_string(&path).unwrap_or_else(|error| panic!("{path}: {error}"))
}

fn number<N: std::str::FromStr>(text: &str) -> N {
    text.parse().unwrap_or_else(|_| panic!("{text}: not a number of this size"))
}

/// What stands between the fences of each fenced block, in the order of the page.
fn blocks(page: &str) -> Vec<&str> {
    let parts: Vec<&str> = page.split("```").collect();
    assert_eq!(parts.len() % 2, 1, "a fence without its other");
    parts.into_iter().skip(1).step_by(2).collect()
}

/// A fenced block: the numbers of its columns, and its rows with their numbers.
fn block(fenced: &str) -> (Vec<usize>, Vec<(usize, Vec<u8>)>) {
    let lines = fenced.strip_prefix("text\n").expect("not a block of text").lines();
    let mut lines = lines.filter(|line| !line.is_empty());
    let columns = lines.next().expect("no columns").split_whitespace().map(number).collect();
    let row = |line: &str| {
        let mut words = line.split_whitespace();
        let first = number(words.next().expect("a line of spaces"));
        (first, words.map(|word| if word == "." { 0 } else { number(word) }).collect())
    };
    (columns, lines.map(row).collect())
}

fn holds(fenced: &str, table: &Table) {
    let (columns, rows) = block(fenced);
    assert_eq!(columns, (0..SITUATIONS).collect::<Vec<_>>());
    assert_eq!(rows.iter().map(|(row, _)| *row).collect::<Vec<_>>(), columns);
    for (row, entries) in rows {
        assert_eq!(entries.len(), SITUATIONS, "row {row}");
        for (column, entry) in entries.into_iter().enumerate() {
            assert_eq!(entry, table[SITUATIONS * row + column], "{row}, {column}");
        }
    }
}

/// Two fenced blocks and no third, the European table first. The heading that stands last before a
/// block is not the same for both, and that of the second names its rule set.
#[test]
fn the_page_has_these_tables() {
    let page = page();
    let blocks = blocks(&page);
    assert_eq!(blocks.len(), 2, "not two fenced blocks");
    for (fenced, rules) in blocks.iter().zip(RuleSet::BOTH) {
        holds(fenced, table(rules));
    }
    let headings: Vec<&str> = page.split("```").step_by(2).take(2).map(last_heading).collect();
    assert_ne!(headings[0], headings[1]);
    assert!(headings[1].contains("American"), "{}", headings[1]);
    assert!(!headings[0].contains("American"), "{}", headings[0]);
}

fn last_heading(text: &str) -> &str {
    text.lines().rfind(|line| line.starts_with('#')).expect("no heading before a table")
}

/// The test above is no weaker for two tables than for one.
#[test]
fn blocks_are_told_apart() {
    let line = |row: usize, rules| {
        let entries = (0..SITUATIONS).map(|column| table(rules)[SITUATIONS * row + column].to_string());
        format!("{row} {}", entries.collect::<Vec<_>>().join(" ").replace('0', "."))
    };
    let columns: Vec<String> = (0..SITUATIONS).map(|column| column.to_string()).collect();
    let fenced = |rules| {
        let rows: Vec<String> = (0..SITUATIONS).map(|row| line(row, rules)).collect();
        format!("text\n   {}\n\n{}\n", columns.join(" "), rows.join("\n"))
    };
    let [european, american] = RuleSet::BOTH.map(fenced);
    let page = format!("# A\n```{european}```\n## American\n```{american}```\n");
    assert_eq!(blocks(&page), [european.as_str(), american.as_str()]);
    holds(&european, table(RuleSet::European));
    holds(&american, table(RuleSet::American));
    for (fenced, rules) in [(european, RuleSet::American), (american, RuleSet::European)] {
        assert!(std::panic::catch_unwind(|| holds(&fenced, table(rules))).is_err());
    }
}

/// A call's situation on paper: its number, and state, auxiliary state and direction with number and name.
fn on_paper(call: &Call) -> [String; 4] {
    let state = match call.state {
        CallState::Proceeding => "3 Outgoing Call Proceeding",
        CallState::Delivered => "4 Call Delivered",
        CallState::Received => "7 Call Received",
        CallState::Active => "10 Active",
    };
    let aux = match call.aux {
        Aux::Idle => "0 Idle",
        Aux::HoldRequest => "1 Hold Request",
        Aux::Held => "2 Call Held",
        Aux::RetrieveRequest => "3 Retrieve Request",
    };
    let direction = ["0 outgoing", "1 incoming"][call.direction as usize];
    [situation(call).to_string(), state.to_string(), aux.to_string(), direction.to_string()]
}

#[test]
fn the_page_has_these_situations() {
    let page = page();
    let cells = |line: &str| -> Vec<String> {
        let inside = line.trim_start_matches('|').trim_end_matches('|');
        inside.split('|').map(|cell| cell.trim().to_string()).collect()
    };
    let lines: Vec<Vec<String>> = page.lines().filter(|line| line.starts_with('|')).map(cells).collect();
    // Two lines of heading, then one for each situation.
    assert_eq!(lines.len(), 2 + SITUATIONS);
    assert_eq!(lines[0], ["situation", "call state", "auxiliary state", "direction"]);
    for call in calls() {
        assert_eq!(lines[2 + situation(&call)], on_paper(&call));
    }
}
