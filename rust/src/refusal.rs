//! The reasons for which something is refused.

use std::fmt;

/// Why something is refused. The numbers are the sequence of testing.
#[derive(Clone, Copy, Debug, PartialEq, Eq, PartialOrd, Ord, Hash)]
#[repr(u8)]
pub enum Refusal {
    BadSetUp = 1,
    BadVersion = 2,
    CutShort = 3,
    UnknownKind = 4,
    UnknownMember = 5,
    BadSideOrLife = 6,
    OutOfRange = 7,
    OverTheCap = 8,
    OutsideTheCollar = 9,
    FillListTooShort = 10,
    WrongPhase = 11,
    NoSuchOrder = 12,
    BookFull = 13,
    NumbersSpent = 14,
    BelowTheMinimum = 15,
    ClaimFails = 16,
    LedgerFull = 17,
}

impl Refusal {
    /// The refusal's number, from 1 to 17.
    pub fn number(self) -> u8 {
        self as u8
    }

    /// The refusal's name.
    pub fn name(self) -> &'static str {
        match self {
            Refusal::BadSetUp => "bad set-up",
            Refusal::BadVersion => "bad version",
            Refusal::CutShort => "cut short",
            Refusal::UnknownKind => "unknown kind",
            Refusal::UnknownMember => "unknown member",
            Refusal::BadSideOrLife => "bad side or life",
            Refusal::OutOfRange => "out of range",
            Refusal::OverTheCap => "over the cap",
            Refusal::OutsideTheCollar => "outside the collar",
            Refusal::FillListTooShort => "fill list too short",
            Refusal::WrongPhase => "wrong phase",
            Refusal::NoSuchOrder => "no such order",
            Refusal::BookFull => "book full",
            Refusal::NumbersSpent => "numbers spent",
            Refusal::BelowTheMinimum => "below the minimum",
            Refusal::ClaimFails => "claim fails",
            Refusal::LedgerFull => "ledger full",
        }
    }

    /// True of the refusals of a reader after which nothing more is read.
    pub fn ends_file(self) -> bool {
        matches!(
            self,
            Refusal::BadVersion | Refusal::CutShort | Refusal::UnknownKind
        )
    }
}

impl fmt::Display for Refusal {
    fn fmt(&self, out: &mut fmt::Formatter<'_>) -> fmt::Result {
        write!(out, "refused {} {}", self.number(), self.name())
    }
}

impl std::error::Error for Refusal {}
