//! Invokes with nothing behind their argument, where further elements are not passed over.

use crate::component::{take, whole, Element, OBJECT};

/// The argument of an invoke of the operation whose object identifier ends so; none where the
/// component is no such invoke or goes on behind its argument.
pub fn argument(component: &[u8], operation: u8) -> Option<Element<'_>> {
    let &[0xA1, length, ref contents @ ..] = component else { return None };
    if length as usize != contents.len() || !whole(contents, 1) {
        return None;
    }
    let (identifier, rest) = take(contents)?;
    let (second, rest) = take(rest)?;
    let (argument, rest) = take(rest)?;
    let named = second.tag == 0x06 && second.contents.strip_prefix(&OBJECT) == Some(&[operation]);
    (identifier.integer().is_some() && named && rest.is_empty()).then_some(argument)
}
