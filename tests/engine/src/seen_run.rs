//! What occurs where the program that moves logs is run.

use crate::runs::Run;
use crate::tally::{before, occurrences};

occurrences! {
    RunSeen, for each Run, behind before(45);
    Moved = "moved",
    Turned = "moved, with records turned",
    Alone = "moved, options alone",
    ExplicitOnly = "moved, first octet 02",
    Options = "refused 0",
    Cut = "3",
    Unknown = "4",
    Field = "5",
    First = "refused 1",
    Figures2 = "refused, a number of two figures",
    Figures3 = "refused, a number of three figures",
}

occurrences! {
    InputSeen, behind before(49);
    Typed = "old from standard input, 13",
    TypedFile = "old by a file's name, 13",
    Parts = "log in small parts",
    PartsRefused = "log in small parts, refused",
    LargestNew = "new from standard input, 65,536 octets, moved to more",
    LargestOld = "old from standard input, 65,536 octets, moved to fewer",
    LargestRefused = "standard input, 65,536 octets, the last record bad",
    LargerByOne = "standard input, 65,537 octets: larger",
    Larger = "standard input, far more octets: larger",
    LargerRefused = "standard input, 65,537 octets, the first record bad: larger",
    FileLargerByOne = "by a file's name, 65,537 octets",
    FileLarger = "by a file's name, more than a million octets, moved",
    FileLargerRefused = "by a file's name, more than a million octets, the last record bad",
    FileNotInput = "by a file's name, another log on standard input",
    NoFile = "cannot read: no such file",
    Directory = "cannot read: a directory by its name",
    InputDirectory = "cannot read: a directory as standard input",
    FullDisk = "cannot write: a log to a full disk",
    FullDiskFile = "cannot write: by a file's name, to a full disk",
    FullDiskLarge = "cannot write: by a file's name, more than a million octets, to a full disk",
    FullDiskRefused = "refused with a full disk as standard output",
    NoWord = "usage: no word",
    OtherWord = "usage: another word",
    EmptyWord = "usage: an empty word",
    ThreeWords = "usage: three words",
    FileFirst = "usage: the file's name first",
    Help = "--help",
}
