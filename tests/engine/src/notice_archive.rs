//! What occurs where a log is packed or an archive unpacked.

use crate::archive::Work;
use crate::archive_orders;
use crate::board::Board;
use crate::event::event;
use crate::moving::records;
use crate::play::start;
use crate::reply::BUFFER;
use crate::seen_layout::LayoutSeen;
use crate::seen_options::by_options;
use crate::tally::Tally;

/// Tallies a log and the archive that is made of it, or that it is made of.
pub fn layout(log: &[u8], archive: &[u8], work: Work, tally: &mut Tally) {
    use LayoutSeen::*;
    let Some((board, rest)) = start(log) else { return };
    let list: Vec<&[u8]> = records(rest).collect();
    tally.add((work, by_options!(LayoutSeen)[log[0] as usize][log[1] as usize]));
    tally.add((work, size(log.len())));
    tally.add(match list.len() {
        0 => (work, Alone),
        1 => (work, Records1),
        2..=254 => (work, Records2),
        255 => (work, Records255),
        256 => (work, Records256),
        257..=16_382 => (work, Records257),
        _ => (work, RecordsMost),
    });
    kinds(&list, work, tally);
    let bodies = &archive[6 + list.len()..];
    tally.add_each(archive_orders::others(&list, bodies).map(|seen| (work, seen)));
    let sorted = list.is_sorted_by_key(|record| record[0]);
    tally.add_if(!sorted, (work, NotSorted));
    let count = (list.len() as u32).to_be_bytes();
    tally.add_if(count.iter().ne(count.iter().rev()), (work, NotLowFirst));
    played(board, &list, work, tally);
}

fn size(octets: usize) -> LayoutSeen {
    match octets {
        0..=255 => LayoutSeen::Small,
        256..=4_095 => LayoutSeen::Middle,
        4_096..=65_534 => LayoutSeen::Large,
        65_535 => LayoutSeen::LargestLess,
        _ => LayoutSeen::Largest,
    }
}

/// How many records of each kind there are, and how they follow each other.
fn kinds(list: &[&[u8]], work: Work, tally: &mut Tally) {
    use LayoutSeen::*;
    const KINDS: [LayoutSeen; 9] = [Kinds1, Kinds2, Kinds3, Kinds4, Kinds5, Kinds6, Kinds7, Kinds8, Kinds9];
    const ONE: [LayoutSeen; 9] = [One1, One2, One3, One4, One5, One6, One7, One8, One9];
    const MORE: [LayoutSeen; 9] = [More1, More2, More3, More4, More5, More6, More7, More8, More9];
    const ONE_ALONE: [LayoutSeen; 9] =
        [OneAlone1, OneAlone2, OneAlone3, OneAlone4, OneAlone5, OneAlone6, OneAlone7, OneAlone8, OneAlone9];
    const MORE_ALONE: [LayoutSeen; 9] = [
        MoreAlone1, MoreAlone2, MoreAlone3, MoreAlone4, MoreAlone5, MoreAlone6, MoreAlone7, MoreAlone8,
        MoreAlone9,
    ];
    const SINGLE: [LayoutSeen; 10] =
        [Single0, Single1, Single2, Single3, Single4, Single5, Single6, Single7, Single8, Single9];
    const SEVERAL: [LayoutSeen; 10] =
        [Several0, Several1, Several2, Several3, Several4, Several5, Several6, Several7, Several8, Several9];
    let mut counts = [0_usize; 9];
    list.iter().for_each(|record| counts[record[0] as usize - 1] += 1);
    let (single, several) = (
        counts.iter().filter(|&&count| count == 1).count(),
        counts.iter().filter(|&&count| count > 1).count(),
    );
    if single + several == 0 {
        return;
    }
    tally.add((work, KINDS[single + several - 1]));
    if list.len() > 1 {
        tally.add_each([(work, SINGLE[single]), (work, SEVERAL[several])]);
    }
    let (one, more) = if single + several == 1 { (ONE_ALONE, MORE_ALONE) } else { (ONE, MORE) };
    for (kind, count) in counts.into_iter().enumerate() {
        tally.add_if(count == 1, (work, one[kind]));
        tally.add_if(count > 1, (work, more[kind]));
    }
    let order: Vec<u8> = list.iter().map(|record| record[0]).collect();
    let changes = order.windows(2).filter(|pair| pair[0] != pair[1]).count();
    tally.add_if(changes > 0 && order.is_sorted(), (work, Ascending));
    tally.add_if(changes > 0 && order.iter().rev().is_sorted(), (work, Descending));
    tally.add_if(changes >= single + several, (work, Apart));
}

/// What the records return where they are played.
fn played(mut board: Board, list: &[&[u8]], work: Work, tally: &mut Tally) {
    use LayoutSeen::*;
    for record in list {
        let seen = match event(&mut board, record, &mut [0; BUFFER]).returned {
            0 => Returned0,
            6 => Returned6,
            7 => Returned7,
            8 => Returned8,
            9 => Returned9,
            10 => Returned10,
            11 => Returned11,
            12 => Returned12,
            _ => continue,
        };
        tally.add((work, seen));
    }
}
