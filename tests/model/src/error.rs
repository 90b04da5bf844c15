//! 01, "Numbers of the refusals": those that a lookup, a file, a transaction or the parameter desk
//! can give; and those of the change requests.

#[derive(Clone, Copy, Debug, PartialEq, Eq)]
#[repr(u8)]
pub enum Error {
    /// "n is 0 or r + n above 128"; C-16: "1 for a supply above 4,500"
    Argument = 1,
    /// "register takes no writes"
    ReadOnly = 2,
    /// "0x3E or 0x61 while sealed"
    Sealed = 3,
    /// "class not in layout"
    NoClass = 4,
    /// "block does not exist", or "0x3F without general access: byte not 1 to 3"
    NoBlock = 5,
    /// "0x40 to 0x60 with none loaded"
    NotLoaded = 6,
    /// "0x40 to 0x60, block A, sealed"
    BlockA = 7,
    /// "checksum differs"
    Checksum = 8,
    /// "0x61 byte not 0 or 1"
    Control = 9,
    /// "file or layout breaks its rules, or image length differs from it"
    Invalid = 10,
    /// "parameter row not sound"
    Parameter = 11,
    /// C-17: "12 now only for a row that leaves its class"
    Place = 12,
    /// "value to be set is outside its row's range"
    Range = 13,
    /// "lent room shorter than the answer"
    Buffer = 14,
    /// "record not sound"
    Record = 15,
    /// C-14: "Only full access may change keys."
    Keys = 16,
    /// C-16: "17 for a commit on low supply"
    Supply = 17,
    /// C-11: "18 where layouts differ"
    Layouts = 18,
}

impl Error {
    pub fn number(self) -> u8 {
        self as u8
    }
}
