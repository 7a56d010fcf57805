//! Numbers given in place of a result (document 01, the table of that name).

/// Why a question has no result; a net count has the lowest atom that is too frequent beside it (document 02, R-2).
#[derive(Clone, Copy, Debug, PartialEq, Eq)]
pub enum Refusal {
    BlockLength,
    Check,
    BlockNumber,
    TermLength,
    Term,
    Filler,
    SideLength,
    SideByte,
    Variables,
    NetCount(u8),
    Constants,
    Rows,
    NoUnifier,
    NotListed,
    LastKey,
    Buffer,
    WrongSide,
    Shared,
}

impl Refusal {
    /// The number that document 01 or 02 gives it; 17 is not used (document 02, R-9).
    pub fn number(self) -> u8 {
        match self {
            Refusal::BlockLength => 1,
            Refusal::Check => 2,
            Refusal::BlockNumber => 3,
            Refusal::TermLength => 4,
            Refusal::Term => 5,
            Refusal::Filler => 6,
            Refusal::SideLength => 7,
            Refusal::SideByte => 8,
            Refusal::Variables => 9,
            Refusal::NetCount(_) => 10,
            Refusal::Constants => 11,
            Refusal::Rows => 12,
            Refusal::NoUnifier => 13,
            Refusal::NotListed => 14,
            Refusal::LastKey => 15,
            Refusal::Buffer => 16,
            Refusal::WrongSide => 18,
            Refusal::Shared => 19,
        }
    }

    /// The atom that it names.
    pub fn atom(self) -> Option<u8> {
        match self {
            Refusal::NetCount(atom) => Some(atom),
            _ => None,
        }
    }
}
