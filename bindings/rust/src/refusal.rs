//! Why a snapshot or a question is refused.
use std::fmt;

/// The reason of a refusal; each has a number.
#[derive(Clone, Copy, Debug, PartialEq, Eq, Hash)]
#[non_exhaustive]
pub enum RefusalKind {
    /// 20: the work area has fewer than 16,384 words.
    SmallWorkArea = 20,
    /// 21: the fuel is above 10,000.
    TooMuchFuel = 21,
    /// 22: the namespace, the prefix or the options are outside their range.
    OutOfRange = 22,
    /// 23: the snapshot has no such definition, module or crate.
    NoSuchItem = 23,
    /// 24: the macros namespace is asked for a definition that is no macro.
    NoMacro = 24,
    /// 30: more than 16,384 words.
    TooManyWords = 30,
    /// 31: an unknown or falling kind, or an argument that is missing or has a kind.
    WrongKind = 31,
    /// 32: a field outside its range, bits past a name's text, or a builtin with another name.
    WrongField = 32,
    /// 33: the number of a thing that is not defined yet.
    Undefined = 33,
    /// 34: something that may stand once only is repeated.
    Repeated = 34,
    /// 35: a record that does not fit the records before it, or a map or a crate left incomplete.
    Misplaced = 35,
    /// 36: more than 64 crates, 512 modules, 2,048 names or 2,048 definitions.
    TooManyRecords = 36,
    /// 40: more than 65,536 bytes of input.
    /// Given by the path printer alone.
    InputTooLong = 40,
    /// 41: a number of bytes that is not a multiple of 4.
    /// Given by the path printer and by [`Snapshot::from_bytes`](crate::Snapshot::from_bytes).
    InputNotWords = 41,
    /// 42: a word after the snapshot that is in no whole question.
    /// Given by the path printer alone.
    WordsOutsideQuestion = 42,
    /// 43: an edition other than 2015, 2018, 2021 and 2024.
    UnknownEdition = 43,
    /// 44: more than 64 questions, a part of one, or too few words for their reports.
    /// Given by a call of the library with several questions; `Snapshot::find_paths` takes any number of them.
    BatchTooLong = 44,
    /// 45: a target with fewer words than the import list has.
    /// Given for a target of the library's; [`Snapshot::import_list`](crate::Snapshot::import_list) makes one that is long enough.
    TargetTooShort = 45,
    /// 46: the limit is outside 1 to 15.
    LimitOutOfRange = 46,
    /// 47: an added name that is there already, or a removal of one that isn't.
    /// Given by an edit of [`EditedWords`](crate::EditedWords).
    EntryThereOrNot = 47,
    /// 48: an addition that would pass 16,384 words or the lent slice.
    /// Given by [`EditedWords::add`](crate::EditedWords::add).
    NoRoom = 48,
    /// 49: a window above 7.
    /// Given by [`Windows::place`](crate::Windows::place).
    NoSuchWindow = 49,
    /// 50: the window has a question that waits already.
    /// Given by [`Windows::place`](crate::Windows::place).
    WindowWaits = 50,
    /// 51: a joined snapshot that passes a limit or the target.
    /// Given by [`join`](crate::join()).
    JoinTooLarge = 51,
}

impl RefusalKind {
    const ALL: [RefusalKind; 24] = [
        Self::SmallWorkArea,
        Self::TooMuchFuel,
        Self::OutOfRange,
        Self::NoSuchItem,
        Self::NoMacro,
        Self::TooManyWords,
        Self::WrongKind,
        Self::WrongField,
        Self::Undefined,
        Self::Repeated,
        Self::Misplaced,
        Self::TooManyRecords,
        Self::InputTooLong,
        Self::InputNotWords,
        Self::WordsOutsideQuestion,
        Self::UnknownEdition,
        Self::BatchTooLong,
        Self::TargetTooShort,
        Self::LimitOutOfRange,
        Self::EntryThereOrNot,
        Self::NoRoom,
        Self::NoSuchWindow,
        Self::WindowWaits,
        Self::JoinTooLarge,
    ];

    /// The reason with a number.
    #[must_use]
    pub fn from_number(number: u32) -> Option<Self> {
        Self::ALL.into_iter().find(|kind| kind.number() == number)
    }

    /// Its number.
    #[must_use]
    pub fn number(self) -> u32 {
        self as u32
    }
}

impl fmt::Display for RefusalKind {
    fn fmt(&self, f: &mut fmt::Formatter<'_>) -> fmt::Result {
        f.write_str(match self {
            Self::SmallWorkArea => "the work area has fewer than 16,384 words",
            Self::TooMuchFuel => "the fuel is above 10,000",
            Self::OutOfRange => "the namespace, the prefix or the options are outside their range",
            Self::NoSuchItem => "the snapshot has no such definition, module or crate",
            Self::NoMacro => "the macros namespace is asked for a definition that is no macro",
            Self::TooManyWords => "more than 16,384 words",
            Self::WrongKind => "an unknown or falling kind, or an argument that is missing or has a kind",
            Self::WrongField => "a field outside its range, bits past a name's text, or a builtin with another name",
            Self::Undefined => "the number of a thing that is not defined yet",
            Self::Repeated => "something that may stand once only is repeated",
            Self::Misplaced => "a record that does not fit the records before it, or a map or a crate left incomplete",
            Self::TooManyRecords => "more than 64 crates, 512 modules, 2,048 names or 2,048 definitions",
            Self::InputTooLong => "more than 65,536 bytes of input",
            Self::InputNotWords => "a number of bytes that is not a multiple of 4",
            Self::WordsOutsideQuestion => "a word after the snapshot that is in no whole question",
            Self::UnknownEdition => "an edition other than 2015, 2018, 2021 and 2024",
            Self::BatchTooLong => "more than 64 questions, a part of one, or too few words for their reports",
            Self::TargetTooShort => "a target with fewer words than the import list has",
            Self::LimitOutOfRange => "the limit is outside 1 to 15",
            Self::EntryThereOrNot => "an added name that is there already, or a removal of one that isn't",
            Self::NoRoom => "an addition that would pass 16,384 words or the lent slice",
            Self::NoSuchWindow => "a window above 7",
            Self::WindowWaits => "the window has a question that waits already",
            Self::JoinTooLarge => "a joined snapshot that passes a limit or the target",
        })
    }
}

/// A refusal: its reason, and for a snapshot the place.
///
/// ```
/// use kelumavor::{RefusalKind, Snapshot};
///
/// // A crate that is left without its own map: that shows after the last word.
/// let refusal = Snapshot::check(&[0x2000_0000, 2021]).unwrap_err();
/// assert_eq!(refusal.kind(), RefusalKind::Misplaced);
/// assert_eq!(refusal.place(), Some(2));
/// ```
#[derive(Clone, Copy, Debug, PartialEq, Eq, Hash)]
pub struct Refusal {
    kind: RefusalKind,
    place: Option<usize>,
}

impl Refusal {
    /// The refusal by a number of the library, which gives no other numbers than those of `RefusalKind`.
    pub(crate) fn new(number: u32, place: Option<usize>) -> Self {
        let kind = RefusalKind::from_number(number).expect("a number of the library");
        Refusal { kind, place }
    }

    /// The same, by a number that the library answers as one of the machine's size.
    pub(crate) fn by(number: usize, place: Option<usize>) -> Self {
        Self::new(number.try_into().unwrap_or(u32::MAX), place)
    }

    /// The reason.
    #[must_use]
    pub fn kind(&self) -> RefusalKind {
        self.kind
    }

    /// The word at which the refused record begins, or the number of words for what shows only after the last.
    #[must_use]
    pub fn place(&self) -> Option<usize> {
        self.place
    }
}

impl fmt::Display for Refusal {
    fn fmt(&self, f: &mut fmt::Formatter<'_>) -> fmt::Result {
        write!(f, "refused {}", self.kind.number())?;
        if let Some(place) = self.place {
            write!(f, " at word {place}")?;
        }
        write!(f, ": {}", self.kind)
    }
}

impl std::error::Error for Refusal {}
