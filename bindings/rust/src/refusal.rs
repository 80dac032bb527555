//! The refusals, with document 01's numbers.

/// Declares an enum whose variants have numbers, and the way back from a number.
macro_rules! numbered {
    ($(#[$m:meta])* $name:ident { $($variant:ident = $n:literal,)* }) => {
        $(#[$m])*
        #[derive(Clone, Copy, Debug, PartialEq, Eq, Hash)]
        #[repr(u32)]
        #[allow(missing_docs)]
        pub enum $name { $($variant = $n,)* }

        impl $name {
            fn from_number(n: u32) -> Option<Self> {
                match n {
                    $($n => Some(Self::$variant),)*
                    _ => None,
                }
            }
        }
    };
}

numbered! {
    /// Something that should never occur in a sound table. Outer number 1.
    InternalError {
        HandleGenerationExhausted = 22,
        ChildIndexOob = 27,
        ChildrenBitmapIndexOob = 28,
        ContextIndexOob = 30,
        TciNodeCountExceeded = 34,
        DestroyParentIndexOob = 35,
    }
}

numbered! {
    /// A fault of the table. Outer number 0x03000000.
    ValidationError {
        MultipleNormalConnectedComponents = 0x0,
        CyclesInTree = 0x1,
        InactiveContextInvalidParent = 0x2,
        InactiveContextWithChildren = 0x3,
        BadContextState = 0x4,
        BadContextType = 0x5,
        InactiveContextWithMeasurement = 0x6,
        MixedContextLocality = 0x7,
        MultipleDefaultContexts = 0x8,
        SimulationNotSupported = 0x9,
        ParentDoesNotExist = 0xa,
        InternalDiceNotSupported = 0xb,
        InternalInfoNotSupported = 0xc,
        ChildDoesNotExist = 0xd,
        InactiveContextWithFlagSet = 0xe,
        LocalityMismatch = 0xf,
        DanglingRetiredContext = 0x10,
        MixedContextTypeConnectedComponents = 0x11,
        ChildWithMultipleParents = 0x12,
        ParentChildLinksCorrupted = 0x13,
        AllowCaNotSupported = 0x14,
        AllowX509NotSupported = 0x15,
        InactiveParent = 0x16,
        InactiveChild = 0x17,
        DpeNotMarkedInitialized = 0x18,
        InvalidMarker = 0x19,
        VersionMismatch = 0x1a,
    }
}

numbered! {
    /// The refusals that the Rust has no number for. Outer number 0x04000000.
    AddedError {
        BadLength = 1,
        WalkLoops = 2,
        CandidatesShort = 3,
    }
}

/// Why a call was refused. A refusal changed nothing.
#[derive(Clone, Copy, Debug, PartialEq, Eq, Hash)]
#[allow(missing_docs)]
pub enum Refusal {
    Internal(InternalError),
    InvalidCommand,
    InvalidArgument,
    InvalidHandle,
    InvalidLocality,
    ArgumentNotSupported,
    MaxTcis,
    Validation(ValidationError),
    Added(AddedError),
}

impl Refusal {
    /// The outer and the inner number.
    pub fn numbers(self) -> (u32, u32) {
        match self {
            Refusal::Internal(e) => (1, e as u32),
            Refusal::InvalidCommand => (2, 0),
            Refusal::InvalidArgument => (3, 0),
            Refusal::InvalidHandle => (0x80, 0),
            Refusal::InvalidLocality => (0x81, 0),
            Refusal::ArgumentNotSupported => (0x83, 0),
            Refusal::MaxTcis => (0x91, 0),
            Refusal::Validation(e) => (0x0300_0000, e as u32),
            Refusal::Added(e) => (0x0400_0000, e as u32),
        }
    }

    fn from_numbers(outer: u32, inner: u32) -> Option<Refusal> {
        Some(match (outer, inner) {
            (1, n) => Refusal::Internal(InternalError::from_number(n)?),
            (2, 0) => Refusal::InvalidCommand,
            (3, 0) => Refusal::InvalidArgument,
            (0x80, 0) => Refusal::InvalidHandle,
            (0x81, 0) => Refusal::InvalidLocality,
            (0x83, 0) => Refusal::ArgumentNotSupported,
            (0x91, 0) => Refusal::MaxTcis,
            (0x0300_0000, n) => Refusal::Validation(ValidationError::from_number(n)?),
            (0x0400_0000, n) => Refusal::Added(AddedError::from_number(n)?),
            _ => return None,
        })
    }

    /// What a word says: 0 is success.
    ///
    /// # Panics
    ///
    /// On a word that no call answers, which the library's contracts rule out.
    pub fn from_word(word: u64) -> Result<(), Refusal> {
        if word == 0 {
            return Ok(());
        }
        let (outer, inner) = ((word >> 32) as u32, word as u32);
        Err(Refusal::from_numbers(outer, inner)
            .unwrap_or_else(|| panic!("no answer has the numbers {outer:#x}, {inner}")))
    }
}

impl core::fmt::Display for Refusal {
    fn fmt(&self, f: &mut core::fmt::Formatter<'_>) -> core::fmt::Result {
        let (outer, inner) = self.numbers();
        write!(f, "{self:?} ({outer:#x}, {inner})")
    }
}

impl core::error::Error for Refusal {}
