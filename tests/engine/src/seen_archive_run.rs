//! What occurs where the program that packs and unpacks logs is run.

use crate::archive::Work;
use crate::runs::Run;
use crate::tally::{before, occurrences};

occurrences! {
    ArchiveRunSeen, for each Run, behind before(56);
    Done = "done",
    Alone = "done, options alone",
    Options = "5, refused 0",
    Cut = "3",
    Unknown = "4",
    Field = "5, a record's number",
    First = "refused 1",
    Figures2 = "refused, a number of two figures",
    Figures3 = "refused, a number of three figures",
    Figures4 = "refused, a number of four figures",
    Figures5 = "refused, a number of five figures",
    MostLess = "one octet fewer than the most",
    Most = "the most octets",
    MostCut = "the most octets, 3",
    MostUnknown = "the most octets, 4",
    MostField = "the most octets, 5 at the last record",
    LargerByOne = "one octet too many",
    LargerOptions = "one octet too many, and bad options",
    LargerCut = "one octet too many, and what would be 3",
    LargerUnknown = "one octet too many, and what would be 4",
    LargerField = "one octet too many, and what would be 5 at a record",
    Larger = "far too many octets",
}

occurrences! {
    ArchiveInputSeen, for each Work, behind before(60);
    Parts = "in small parts",
    PartsRefused = "in small parts, refused",
    FileNotInput = "by a file's name, other octets on standard input",
    NoFile = "cannot read: no such file",
    NoName = "cannot read: an empty file's name",
    Directory = "cannot read: a directory by its name",
    InputDirectory = "cannot read: a directory as standard input",
    FullDisk = "cannot write: to a full disk",
    FullDiskFile = "cannot write: by a file's name, to a full disk",
    FullDiskMost = "cannot write: the most octets, to a full disk",
    FullDiskRefused = "refused with a full disk as standard output",
    ThreeWords = "usage: three words",
    FileFirst = "usage: the file's name first",
    OtherWord = "usage: another word, as capitals or with letters behind it",
}

occurrences! {
    ArchiveWordSeen, behind before(62);
    NoWord = "usage: no word",
    EmptyWord = "usage: an empty word",
    MoveWord = "usage: a word of the program that moves logs",
    HelpAndWord = "usage: --help and another word",
    Help = "--help",
}
