//! How a reader of road files can be wrong in one thing.

macro_rules! faults {
    ($($fault:ident),* $(,)?) => {
        #[derive(Clone, Copy, Debug, PartialEq, Eq)]
        pub enum Fault {
            $($fault),*
        }

        impl Fault {
            pub const ALL: &[Fault] = &[$(Fault::$fault),*];
        }
    };
}

faults! {
    // Which arc stands.
    LastStands, FirstStands, LongestStands, ZeroIsNone, LowBitsStand, LengthIn32Bits, HeldAt65533,
    HeldAt65535, BothWays, Transposed, StrideOf128, OwnArcStands, DiagonalNone,
    // What is counted and tested, and when.
    OwnArcUncounted, OwnArcUntested, ToUntested, FromUntested, Point0Allowed, OnePointMore,
    PointIn16Bits, PointIn32Bits, Points127, Points129, Points0, PointsIn8Bits, PointsIn32Bits,
    RangeBeforeForm, RangeAtEnd, RangeIsForm, CountAtOnce, CountUntested, CountAtMost, CountAtLeast,
    CountIn8Bits, CountIn16Bits, CountIn32Bits, NoProblemIsCount, EmptyAccepted, SecondSameAllowed,
    SecondReplaces, SecondRangeFirst, EarlyArcRangeFirst, EarlyArcAllowed,
    // The form of the lines.
    CommentNeedsSpace, CommentUppercase, CommentAfterSpaces, CommentOnlyBeforeProblem, SpaceBefore,
    SpaceAfter, OneSpaceOnly, TabIsSpace, CrIsDropped, BlankAllowed, LfIsSpace, SpacesAllowed,
    LastLfNeeded, BlankAfterLastLf, LastLineLost, MissingIsZero, PartTooMany, AnyWordForSp,
    Uppercase, LetterTwice, LetterGlued, PlusAllowed, MinusAllowed, NineDigits, ElevenDigits,
    NoZerosFirst, HighBitDropped, ByteAfterNine, ByteBeforeZero, NulEnds,
    // What is left.
    RestIsJunk, RestIsNone, TableAtRefusal, JunkAtRefusal, JunkAtWrongBuffer, WrongBufferBeyond,
    WrongBufferLast, LargerBufferTaken, PointsAtRefusal, PointsUnwritten,
}
