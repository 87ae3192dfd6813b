//! Refusals: the table's rows as an enum, with side and place.
use crate::ffi::{Answer, BatchAnswer, WindowAnswer};
use std::fmt;

/// Why a call was refused: a row of the table of refusals. Its number is [`Reason::number`].
#[derive(Clone, Copy, PartialEq, Eq, Debug, Hash, PartialOrd, Ord)]
#[repr(u8)]
pub enum Reason {
    /// 1: bases and mates differ in length.
    UnequalLengths = 1,
    /// 2: no bases, of the molecule: a motif may have none.
    NoBases = 2,
    /// 3: more bases than the call takes. In a batch the place is the index of the lowest such motif.
    TooLong = 3,
    /// 4: a base that is not A, C, G, T or U. The place is the lowest.
    BadLetter = 4,
    /// 5: a mate that is no position. The place is the lowest base that has one.
    BadMate = 5,
    /// 6: mates not mutual. The place is the lowest i whose mate's mate is not i.
    MatesNotMutual = 6,
    /// 7: arcs (a, b) and (i, j) with a < i < b < j. The place is the lowest such i.
    ArcsCross = 7,
    /// 8: the work slice is shorter than [`work_size`](crate::work_size) or [`query_work_size`](crate::query_work_size) says.
    WorkTooShort = 8,
    /// 9: `show` has fewer places than the motif bases, `verify` not as many, `query` fewer hits than the catalog blocks, or `batch` fewer than that for
    /// each motif.
    WrongSlice = 9,
    /// 10: catalog or cache is not whole blocks, or none, or too many.
    NotWholeBlocks = 10,
    /// 11: an unsound block in the catalog. The place is the lowest.
    UnsoundBlock = 11,
    /// 12: a molecule number that is no block of the catalog.
    NumberTooLarge = 12,
    /// 13: `add` under a number that has a molecule.
    AlreadyHeld = 13,
    /// 14: `remove` of a number that has none.
    NotHeld = 14,
    /// 15: the motif buffer of a batch is not 1 to [`MOTIFS_MOST`](crate::MOTIFS_MOST) whole blocks, and then the place is 0, or a block of it is unsound or
    /// empty, and then the place is the lowest.
    BadMotifs = 15,
}

impl Reason {
    /// All reasons, by number.
    pub const ALL: [Reason; 15] = [
        Reason::UnequalLengths,
        Reason::NoBases,
        Reason::TooLong,
        Reason::BadLetter,
        Reason::BadMate,
        Reason::MatesNotMutual,
        Reason::ArcsCross,
        Reason::WorkTooShort,
        Reason::WrongSlice,
        Reason::NotWholeBlocks,
        Reason::UnsoundBlock,
        Reason::NumberTooLarge,
        Reason::AlreadyHeld,
        Reason::NotHeld,
        Reason::BadMotifs,
    ];

    /// The row's number in the table of refusals, 1 to 15.
    pub const fn number(self) -> u8 {
        self as u8
    }

    fn text(self) -> &'static str {
        match self {
            Reason::UnequalLengths => "bases and mates differ in length",
            Reason::NoBases => "no bases",
            Reason::TooLong => "too long",
            Reason::BadLetter => "not a letter",
            Reason::BadMate => "a mate that is no position",
            Reason::MatesNotMutual => "mates not mutual",
            Reason::ArcsCross => "arcs cross",
            Reason::WorkTooShort => "work slice too short",
            Reason::WrongSlice => "places or hits of the wrong length",
            Reason::NotWholeBlocks => "catalog or cache not whole blocks, none, or too many",
            Reason::UnsoundBlock => "unsound catalog block",
            Reason::NumberTooLarge => "a number that is no block of the catalog",
            Reason::AlreadyHeld => "the number has a molecule",
            Reason::NotHeld => "the number has no molecule",
            Reason::BadMotifs => "buffer not whole blocks, none, or too many, or an unsound or empty block",
        }
    }
}

/// What a refusal is about.
#[derive(Clone, Copy, PartialEq, Eq, Debug, Hash, PartialOrd, Ord)]
#[repr(u8)]
pub enum Side {
    /// 0: the motif.
    Motif = 0,
    /// 1: the molecule.
    Molecule = 1,
    /// 2: neither; every reason from [`Reason::WorkTooShort`] to [`Reason::NotHeld`].
    Neither = 2,
}

impl Side {
    /// The side's number, 0 to 2.
    pub const fn number(self) -> u8 {
        self as u8
    }
}

/// A refused call. It has changed nothing.
#[derive(Clone, Copy, PartialEq, Eq, Debug, Hash)]
pub struct Refusal {
    /// The first row of the table of refusals that applies, in the order that the call gives.
    pub reason: Reason,
    /// The strand that it is about, if any.
    pub side: Side,
    /// The lowest position, block or motif that the reason names, 0 where it names none.
    pub place: usize,
}

impl fmt::Display for Refusal {
    fn fmt(&self, f: &mut fmt::Formatter) -> fmt::Result {
        let side = match self.side {
            Side::Motif => "motif: ",
            Side::Molecule => "molecule: ",
            Side::Neither => "",
        };
        write!(f, "refused ({}): {side}{}", self.reason.number(), self.reason.text())?;
        match self.reason {
            Reason::BadLetter | Reason::BadMate | Reason::MatesNotMutual | Reason::ArcsCross => write!(f, " at {}", self.place),
            Reason::UnsoundBlock | Reason::BadMotifs => write!(f, " {}", self.place),
            Reason::TooLong if self.place != 0 => write!(f, ", number {} of the batch", self.place),
            _ => Ok(()),
        }
    }
}

impl std::error::Error for Refusal {}

/// The refusal of this number, side and place, where the number is not 0.
fn judged(number: usize, side: usize, place: usize) -> Result<(), Refusal> {
    if number == 0 {
        return Ok(());
    }
    let known_reason = Reason::ALL.into_iter().find(|reason| reason.number() as usize == number);
    let known_side = [Side::Motif, Side::Molecule, Side::Neither].into_iter().find(|known| known.number() as usize == side);
    let (Some(reason), Some(side)) = (known_reason, known_side) else {
        panic!("lakhido: the archive gave refusal {number} with side {side}, which the wrapper does not know")
    };
    Err(Refusal { reason, side, place })
}

/// The answer of a call: refused, or accepted with its values.
pub(crate) fn accepted(answer: Answer) -> Result<Answer, Refusal> {
    judged(answer.refusal, answer.side, answer.place).map(|()| answer)
}

/// The same of window.
pub(crate) fn accepted_window(answer: WindowAnswer) -> Result<WindowAnswer, Refusal> {
    judged(answer.refusal, answer.side, answer.place).map(|()| answer)
}

/// The same of batch.
pub(crate) fn accepted_batch(answer: BatchAnswer) -> Result<BatchAnswer, Refusal> {
    judged(answer.refusal, answer.side, answer.place).map(|()| answer)
}
