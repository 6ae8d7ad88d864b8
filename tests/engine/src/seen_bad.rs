//! What occurs with bad records of either form, whatever is done with the log: they are cut, or a field is wrong.

/// These occurrences of cut records in the midst of a list.
macro_rules! cuts {
    ([$($before:tt)*] [] [$($behind:tt)*]) => {
        $crate::tally::occurrences! {
            $($before)*
            Cut1Kind = "3: kind 1 cut right after the kind",
            Cut1Last = "3: kind 1 cut in its last octet",
            Cut1Else = "3: kind 1 cut elsewhere",
            Cut2Kind = "3: kind 2 cut right after the kind",
            Cut2Last = "3: kind 2 cut in its last octet",
            Cut2Else = "3: kind 2 cut elsewhere",
            Cut3Kind = "3: kind 3 cut right after the kind",
            Cut3Last = "3: kind 3 cut in its last octet",
            Cut3Else = "3: kind 3 cut elsewhere",
            Cut4Kind = "3: kind 4 cut right after the kind",
            Cut4Last = "3: kind 4 cut in its last octet",
            Cut4Else = "3: kind 4 cut elsewhere",
            Cut5Kind = "3: kind 5 cut right after the kind",
            Cut5Last = "3: kind 5 cut in its last octet",
            Cut5Else = "3: kind 5 cut elsewhere",
            Cut6Kind = "3: kind 6 cut right after the kind",
            Cut6Last = "3: kind 6 cut in its last octet",
            Cut6Else = "3: kind 6 cut elsewhere",
            Cut7Kind = "3: kind 7 cut right after the kind",
            Cut7Last = "3: kind 7 cut in its last octet",
            Cut7Else = "3: kind 7 cut elsewhere",
            Cut8Kind = "3: kind 8 cut right after the kind",
            Cut8Last = "3: kind 8 cut in its last octet",
            Cut8Else = "3: kind 8 cut elsewhere",
            Cut9Kind = "3: kind 9 cut right after the kind",
            Cut9Last = "3: kind 9 cut in its last octet",
            Cut9Else = "3: kind 9 cut elsewhere",
            CutField = "3: and a field is wrong before the cut",
            $($behind)*
        }
    };
}

/// Those of a list, by kind from 1: cut right after the kind, in the last octet, elsewhere.
macro_rules! by_cut {
    ($list:ident) => {
        [
            [$list::Cut1Kind, $list::Cut1Last, $list::Cut1Else],
            [$list::Cut2Kind, $list::Cut2Last, $list::Cut2Else],
            [$list::Cut3Kind, $list::Cut3Last, $list::Cut3Else],
            [$list::Cut4Kind, $list::Cut4Last, $list::Cut4Else],
            [$list::Cut5Kind, $list::Cut5Last, $list::Cut5Else],
            [$list::Cut6Kind, $list::Cut6Last, $list::Cut6Else],
            [$list::Cut7Kind, $list::Cut7Last, $list::Cut7Else],
            [$list::Cut8Kind, $list::Cut8Last, $list::Cut8Else],
            [$list::Cut9Kind, $list::Cut9Last, $list::Cut9Else],
        ]
    };
}

/// These of wrong fields, but for kind 9.
macro_rules! wrong_fields {
    ([$($before:tt)*] [] [$($behind:tt)*]) => {
        $crate::tally::occurrences! {
            $($before)*
            Field1 = "5: kind 1",
            Field2 = "5: kind 2",
            Field3 = "5: kind 3",
            Field5 = "5: kind 5",
            Field7 = "5: kind 7",
            Field8 = "5: kind 8",
            $($behind)*
        }
    };
}

pub(crate) use {by_cut, cuts, wrong_fields};
