//! What occurs where a party's name is looked up.

use crate::attendant::{name, Screen};
use crate::seen_name::NameSeen::*;
use crate::tally::Tally;

const COMMA: u8 = b',';
const BLANK: u8 = b' ';
const MOST: usize = 255;

pub fn notice(line: &[u8], digits: &[u8], screen: &Screen, tally: &mut Tally) {
    let parts: Vec<&[u8]> = line.split(|&octet| octet == COMMA).collect();
    layout(&parts, line, tally);
    let [part, behind @ ..] = parts.as_slice() else { return };
    blanks(part, behind, tally);
    if part.is_empty() {
        instead(digits, tally);
        tally.add_if(line.is_empty() && !digits.is_empty(), EmptyLine);
        tally.add_if(line.is_empty() && digits.is_empty(), EmptyBoth);
        tally.add_if(!line.is_empty() && digits.is_empty(), CommaNoDigits);
    } else {
        tally.add_if(digits.is_empty(), NoDigits);
        tally.add_if(part.len() == 1, OneOctet);
        tally.add_if(part.len() >= 128, Long);
        for (octet, seen) in [(0, With00), (0x0A, With0A), (0xFF, WithFF)] {
            tally.add_if(part.contains(&octet), seen);
        }
        tally.add_if(part.contains(&(COMMA | 0x80)), WithAC);
    }
    tally.add_if(name(line, digits) == b"-", Dash);
    tally.add_if(*screen != Screen::EMPTY, Shown);
}

/// Where the commas stand.
fn layout(parts: &[&[u8]], line: &[u8], tally: &mut Tally) {
    let some: Vec<bool> = parts.iter().map(|part| !part.is_empty()).collect();
    let all = some.iter().all(|some| *some);
    tally.add_each(match *some {
        [true] => Some(NoComma),
        [true, true] => Some(OneComma),
        [true, false] => Some(CommaLast),
        [false, true] => Some(CommaFirst),
        [false, false] => Some(CommaAlone),
        [false, true, ..] => Some(CommaFirstMore),
        _ if all => Some(Commas),
        _ => None,
    });
    tally.add_if(parts.len() > 2 && !some.contains(&true), CommasAlone);
    tally.add_if(parts.len() > 2 && some[0] && !some[1], CommasTogether);
    if line.len() == MOST {
        tally.add_if(parts.len() == 1, Longest);
        tally.add_if(!some[0], LongestFirst);
        tally.add_if(parts.len() == 2 && !some[1], LongestLast);
    }
}

/// What stands at the ends of the part.
fn blanks(part: &[u8], behind: &[&[u8]], tally: &mut Tally) {
    let [first, last] = [part.first(), part.last()].map(|octet| octet.copied().unwrap_or(0));
    let alone = !part.is_empty() && part.iter().all(|&octet| octet == BLANK);
    let comma = !behind.is_empty();
    tally.add_if(comma && !alone && last == BLANK, BlankBefore);
    tally.add_if(behind.first().is_some_and(|part| part.first() == Some(&BLANK)), BlankBehind);
    tally.add_if(alone && comma, BlankAlone);
    tally.add_if(alone && !comma, BlanksAlone);
    tally.add_if(!alone && first == BLANK, BlankFirst);
    tally.add_if(!alone && !comma && last == BLANK, BlankLast);
    tally.add_if([first, last].iter().any(|octet| matches!(octet, b'\t' | b'\n')), OtherBlank);
}

/// Digits in the place of the part.
fn instead(digits: &[u8], tally: &mut Tally) {
    tally.add_if(digits.len() == 1, DigitsOne);
    tally.add_if(digits.len() == MOST, DigitsMost);
    tally.add_if(digits.contains(&COMMA), DigitsComma);
    tally.add_if([digits.first(), digits.last()].contains(&Some(&BLANK)), DigitsBlank);
    tally.add_if(!digits.iter().all(u8::is_ascii_digit), DigitsElse);
}
