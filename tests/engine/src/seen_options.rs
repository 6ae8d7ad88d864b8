//! What occurs with each pair of options that a log may have.

/// These occurrences in the midst of a list, each text with something in front.
macro_rules! options {
    ([$($before:tt)*] [$front:literal] [$($behind:tt)*]) => {
        $crate::tally::occurrences! {
            $($before)*
            Options00 = concat!($front, "options 00 00"),
            Options01 = concat!($front, "options 00 01"),
            Options02 = concat!($front, "options 00 02"),
            Options03 = concat!($front, "options 00 03"),
            Options10 = concat!($front, "options 01 00"),
            Options11 = concat!($front, "options 01 01"),
            Options12 = concat!($front, "options 01 02"),
            Options13 = concat!($front, "options 01 03"),
            Options20 = concat!($front, "options 02 00"),
            Options21 = concat!($front, "options 02 01"),
            Options22 = concat!($front, "options 02 02"),
            Options23 = concat!($front, "options 02 03"),
            $($behind)*
        }
    };
}

/// Those of a list, by first and second octet.
macro_rules! by_options {
    ($list:ident) => {
        [
            [$list::Options00, $list::Options01, $list::Options02, $list::Options03],
            [$list::Options10, $list::Options11, $list::Options12, $list::Options13],
            [$list::Options20, $list::Options21, $list::Options22, $list::Options23],
        ]
    };
}

pub(crate) use {by_options, options};
