//! Why an argument is not that of a SubaddressTransfer invoke.

use crate::component::Element;
use crate::notice_component::elements;
use crate::records::subaddress_transfer;
use crate::seen_leg::LegSeen;
use crate::subaddress::is_transfer;

/// The reason; none where there are several.
pub fn argument(element: &Element) -> Option<LegSeen> {
    let right = |tag: u8| {
        let octets = [&[tag, element.contents.len() as u8], element.contents].concat();
        is_transfer(&subaddress_transfer(&[0x02, 0x01, 0x05], &octets))
    };
    Some(match (element.tag, element.contents.len()) {
        (0x04, 0) => LegSeen::Argument0,
        (0x04, 21) => LegSeen::Argument21,
        (0x04, _) => LegSeen::ArgumentLonger,
        (0x30, _) => return sequence(&elements(element.contents)),
        (0x24, _) if right(0x30) => LegSeen::Argument24,
        _ if right(0x30) => LegSeen::SequenceTag,
        _ if right(0x04) => LegSeen::ArgumentTag,
        _ => return None,
    })
}

/// Tag and length of each element tell it: the values do not matter.
fn sequence(list: &[Element]) -> Option<LegSeen> {
    let forms: Vec<(u8, usize)> = list.iter().map(|element| (element.tag, element.contents.len())).collect();
    Some(match forms.as_slice() {
        [] => LegSeen::SequenceEmpty,
        [(4, 0)] | [(4, 0), (1, 1)] => LegSeen::Sequence0,
        [(4, 21)] | [(4, 21), (1, 1)] => LegSeen::Sequence21,
        [(1, 1)] => LegSeen::SequenceFlagAlone,
        [(1, 1), (4, 1..=20)] => LegSeen::SequenceFlagFirst,
        [(_, 1..=20)] | [(_, 1..=20), (1, 1)] if forms[0].0 != 4 => LegSeen::SequenceInner,
        [(4, 1..=20), (1, 0)] => LegSeen::SequenceFlag0,
        [(4, 1..=20), (1, 2)] => LegSeen::SequenceFlag2,
        [(4, 1..=20), (4, 1..=20)] => LegSeen::SequenceTwo04,
        [(4, 1..=20), (_, 1)] => LegSeen::SequenceFlagTag,
        [(4, 1..=20), (1, 1), (1, 1)] => LegSeen::SequenceTwoFlags,
        [(4, 1..=20), (1, 1), (_, _)] => LegSeen::SequenceThird,
        _ => return None,
    })
}
