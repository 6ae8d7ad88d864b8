//! Invokes that were read, written again: what has to hold then, and what of it occurs.

use crate::component::Operation;
use crate::invoke::{Invoke, InvokeId, ROOM};
use crate::notice_component::further;
use crate::tally::{Seen, Tally};

const FILL: u8 = 0x5A;

/// Holds a component that is read as an invoke to both ways round, and tallies its form.
pub fn rewritten(component: &[u8], tally: &mut Tally) -> Result<(), String> {
    let Some(invoke) = Invoke::read(component) else { return Ok(()) };
    let mut buffer = [FILL; ROOM];
    let count =
        invoke.write(&mut buffer).map_err(|returned| format!("{invoke:?}: refused with {returned}"))?;
    let (written, beyond) = buffer.split_at(count);
    if beyond.iter().any(|&octet| octet != FILL) {
        return Err(format!("{invoke:?}: octets beyond the {count} counted were written"));
    }
    holds(component, &invoke, written)?;
    if further(component, invoke.operation).is_empty() {
        as_written(&invoke, tally);
    }
    Ok(())
}

/// What is written is read as the same invoke. It is the component itself, if that has
/// nothing behind the last element looked at; else it is shorter.
pub fn holds(component: &[u8], invoke: &Invoke, written: &[u8]) -> Result<(), String> {
    let fault =
        |what| Err(format!("{invoke:?}, read from {component:02x?}, written as {written:02x?}: {what}"));
    let again = Invoke::read(written);
    if again.as_ref() != Some(invoke) {
        return fault(format!("that is read as {again:?}"));
    }
    let nothing_behind = further(component, invoke.operation).is_empty();
    if nothing_behind && written != component {
        return fault("not the octets that were read".to_string());
    }
    if !nothing_behind && written.len() >= component.len() {
        return fault("not shorter than what was read, which has further elements".to_string());
    }
    Ok(())
}

fn as_written(invoke: &Invoke, tally: &mut Tally) {
    let Invoke { identifier: InvokeId(identifier), operation } = *invoke;
    let (seen, forms) = match operation {
        Operation::Execute => (
            Seen::WrittenExecute,
            [
                Seen::WrittenExecutePositiveOne,
                Seen::WrittenExecutePositiveTwo,
                Seen::WrittenExecuteNegativeOne,
                Seen::WrittenExecuteNegativeTwo,
            ],
        ),
        Operation::Explicit(_) => (
            Seen::WrittenExplicit,
            [
                Seen::WrittenExplicitPositiveOne,
                Seen::WrittenExplicitPositiveTwo,
                Seen::WrittenExplicitNegativeOne,
                Seen::WrittenExplicitNegativeTwo,
            ],
        ),
        Operation::LinkRequest => (
            Seen::WrittenRequest,
            [
                Seen::WrittenRequestPositiveOne,
                Seen::WrittenRequestPositiveTwo,
                Seen::WrittenRequestNegativeOne,
                Seen::WrittenRequestNegativeTwo,
            ],
        ),
    };
    tally.add(seen);
    tally.add(forms[form(identifier)]);
    if let Operation::Explicit(link) = operation {
        let forms = [
            Seen::WrittenLinkPositiveOne,
            Seen::WrittenLinkPositiveTwo,
            Seen::WrittenLinkNegativeOne,
            Seen::WrittenLinkNegativeTwo,
        ];
        tally.add(forms[form(link.0)]);
    }
    border(identifier, tally);
}

/// 0 and 1 for what is not negative, in one octet and in two; 2 and 3 for what is.
pub fn form(value: i16) -> usize {
    2 * (value < 0) as usize + !(-128..=127).contains(&value) as usize
}

/// Identifiers where the sign or the number of octets changes, or the range ends.
fn border(identifier: i16, tally: &mut Tally) {
    tally.add(match identifier {
        -32768 => Seen::WrittenLowest,
        -129 => Seen::WrittenMinus129,
        -128 => Seen::WrittenMinus128,
        -1 => Seen::WrittenMinus1,
        0 => Seen::Written0,
        127 => Seen::Written127,
        128 => Seen::Written128,
        32767 => Seen::WrittenHighest,
        _ => return,
    });
}
