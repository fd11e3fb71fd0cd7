//! The causes of refusals.

use core::fmt;

// Declares the causes, each with its number.
macro_rules! causes {
    ($($(#[$meta:meta])* $name:ident = $number:literal,)*) => {
        /// Why a call refuses; `docs/FORMATS.md` explains each cause and the order in which they are looked for.
        ///
        /// ```
        /// # use dsa_planner::Cause;
        /// assert_eq!((Cause::Unfenced.number(), Cause::Unfenced.name()), (43, "Unfenced"));
        /// ```
        #[derive(Clone, Copy, Debug, PartialEq, Eq, Hash)]
        #[non_exhaustive]
        pub enum Cause {
            $($(#[$meta])* $name,)*
            /// A cause of a later version of the library, by its number.
            Unknown(u32),
        }

        impl Cause {
            /// All causes that this version knows.
            pub const ALL: &'static [Cause] = &[$(Cause::$name,)*];

            /// The cause of a number.
            #[must_use]
            pub const fn of(number: u32) -> Cause {
                match number {
                    $($number => Cause::$name,)*
                    other => Cause::Unknown(other),
                }
            }

            /// The number of the cause, as `dsa_planner.h` and `docs/FORMATS.md` have it.
            #[must_use]
            pub const fn number(self) -> u32 {
                match self {
                    $(Cause::$name => $number,)*
                    Cause::Unknown(number) => number,
                }
            }

            /// The name of the cause, as `Unfenced`.
            #[must_use]
            pub const fn name(self) -> &'static str {
                match self {
                    $(Cause::$name => stringify!($name),)*
                    Cause::Unknown(_) => "Unknown",
                }
            }
        }
    };
}

causes! {
    /// The list's length is no multiple of 64.
    Length = 1,
    /// Descriptor `first`: the operation code is not one of a move, fill, compare, compare pattern, delta
    /// or dualcast, or of a checksum if there may be one.
    Opcode = 2,
    /// Descriptor `first`: flags 0x0004 and 0x0008 have to be set; 0x0010 (interrupt), 0x0040 and bits 16
    /// to 23 (of a checksum 19 to 23) may not; 0x0001 (fence) only in lists with barriers; 0x0080 (check)
    /// only in compares.
    FlagBits = 3,
    /// Descriptor `first`: a reserved bit or byte is not zero.
    Reserved = 4,
    /// Descriptor `first`: the transfer size is 0.
    SizeZero = 5,
    /// Descriptor `first`: an address of its data or its record would be 2^64 or more.
    Wrap = 6,
    /// Descriptor `first`: the record's address is no multiple of 32.
    RecordAlign = 7,
    /// Descriptor `first`: the low twelve bits of a dualcast's destinations differ.
    DualcastBits = 8,
    /// Descriptor `first`: two of a dualcast's ranges meet, or a delta's record and its destination, or
    /// what a copy with CRC reads and its destination.
    Overlap = 9,
    /// Descriptor `first`: a delta's size is no multiple of 8 or above 0x80000, its destination no multiple
    /// of 8, or its record's size no multiple of 10.
    Delta = 10,
    /// Descriptor `first`: the expected result of a compare or a compare pattern is above 1.
    Expected = 11,
    /// Descriptor `first`: its PASID or privilege is not the first operation's.
    MixedPasid = 12,
    /// Descriptor `first`: the 32 bytes of the record meet a data range.
    RecordMeetsData = 13,
    /// Operation `first` is a delta longer than the greatest transfer.
    DeltaTooLong = 30,
    /// Operation `first` checks for a difference and needs more than one piece.
    ExpectedSplit = 31,
    /// There are more than 65,536 pieces.
    TooManyPieces = 32,
    /// The staging area, 96 bytes for each piece, meets a range of piece `first`.
    StagingMeets = 33,
    /// The row of records of operation `first`'s pieces meets its own data.
    RowMeetsData = 34,
    /// An address of the row of records of operation `first` would be 2^64 or more.
    RowWrap = 35,
    /// Descriptor `first` is longer than the greatest transfer: split it first.
    OverTransfer = 37,
    /// The sizes of the groups do not add up to the number of pieces.
    Count = 40,
    /// Group `first` is empty or larger than the greatest batch.
    GroupSize = 41,
    /// The first of group `first` is fenced.
    FirstFence = 42,
    /// Pieces `first` and `second` of one group conflict, or have a barrier between, but no fence.
    Unfenced = 43,
    /// The portal's length is no multiple of 64.
    PortalLength = 44,
    /// The number of descriptors in the batch entry of group `first` is outside 2 to the greatest batch, or
    /// a byte is not the one of its place.
    BatchFields = 45,
    /// The staging's length is not 64 for each piece in a batch and 32 for each batch, or there are more
    /// than 65,536 pieces.
    StagingLength = 46,
    /// Piece `first` is refused; `inner` is the cause.
    Entry = 47,
    /// The first piece of group `first` is fenced.
    EntryFence = 48,
    /// The 32 record bytes of batch `first` are not all zero.
    RecordBytes = 49,
    /// The plan is not legal; `inner` is the cause, and the places are its own.
    Plan = 60,
    /// There are not n + 1 prices and n pairs for n pieces.
    Lengths = 61,
    /// The pair of piece `first` is not one of conflicting pieces from there on.
    Pair = 62,
    /// One group from piece `first` on gives a lower price at `second` (0 and 0: the first price is not 0).
    Price = 63,
    /// The last price is not the plan's cost.
    Total = 64,
    /// The certificate is of another version than the settings.
    Version = 65,
    /// The submitted piece `first` is not the list's; only where the list is given too.
    OtherPiece = 66,
    /// There was not enough memory.
    Memory = 73,
    /// A setting is outside its limits, the version is neither 1 nor 2, or the table of prices has a wrong
    /// length; `first` is the number of the setting, from 1 on in the order of the settings, and 8 for the
    /// table.
    Settings = 83,
    /// A buffer is too small for the bytes to submit: portal needs `first` bytes and staging `second`.
    NoRoom = 90,
    /// An array is too small for the prices, the pairs or the marks of `first` pieces.
    NoRoomForCertificate = 91,
    /// The array of rows is too small: `first` rows are needed.
    NoRoomForRows = 92,
    /// The buffer is too small for the list of what is left: `first` bytes are needed.
    NoRoomForList = 93,
    /// The array of reasons is too small: `first` reasons are needed.
    NoRoomForReasons = 94,
    /// The array of warnings is too small: `first` warnings are needed.
    NoRoomForWarnings = 95,
    /// Region `first` goes past 2^64.
    RegionWrap = 100,
    /// Region `first` begins before the one before it has ended.
    RegionOrder = 101,
    /// A range of operation `first`, or the row of its records, lies in no one region.
    Outside = 102,
    /// There are not as many bases as regions.
    Bases = 103,
    /// A buffer is shorter than the bytes to submit.
    Room = 104,
    /// At its new base region `first` would go past 2^64.
    BaseWrap = 105,
    /// A completion record in region `first` would be no multiple of 32, or a delta's destination there no
    /// multiple of 8.
    Misaligned = 106,
    /// The two destinations of a dualcast, in regions `first` and `second`, would differ in their low 12
    /// bits.
    BaseDualcastBits = 107,
    /// At their new bases region `first` and the earlier region `second` share an address.
    RegionsMeet = 108,
    /// At its new base region `first` has an address in the staging area, 96 bytes for each piece.
    BaseStagingMeets = 109,
    /// The staging address is no multiple of 64, or above 2^63.
    Staging = 110,
    /// The rows do not have the form of a prepared list.
    NotPrepared = 111,
    /// There are not 32 bytes of completion records for each piece.
    Records = 112,
    /// One of pieces `first` and `second` writes into the other's record: resume from the failed entry on
    /// if only groups before it share records; else restore the memory, and run the whole list with a
    /// record for each.
    SharedRecord = 113,
    /// Piece `first` is given up, but the status in its record is not 3 or above, or there is no such
    /// piece.
    NotFailed = 114,
    /// Piece `second` has begun, piece `first` has not succeeded, a barrier is between: restore memory, run
    /// the whole list.
    PassedBarrier = 115,
    /// No slot is free (a tracker has at most 64): complete a submission first.
    NoSlot = 120,
    /// The submission may read or write `first` spans, more than the tracker keeps of one.
    TooManySpans = 121,
    /// Slot `first` has no outstanding submission.
    NotOutstanding = 122,
    /// The submission of slot `first` still waits for another.
    Held = 123,
    /// Span `first` goes past 2^64.
    SpanWrap = 124,
    /// Piece `first` has another PASID or privilege than the first piece that came.
    OtherOwner = 125,
    /// The words do not have the form of a tracker, or are too few for one of these measures; of a new
    /// tracker `first` is the measure: 1 slots, 3 log2_rows, 4 log2_unit, 5 words.
    NotATracker = 126,
    /// The groups of the plan do not have as many pieces as there are; no call from C has it, since a
    /// portal tells its groups and their pieces.
    OtherPlan = 127,
    /// The plan has `first` groups, more than slots are free (of at most 64) or have a place in the array.
    FewSlots = 128,
}

impl fmt::Display for Cause {
    fn fmt(&self, f: &mut fmt::Formatter<'_>) -> fmt::Result {
        write!(f, "{} {}", self.number(), self.name())
    }
}

impl From<u32> for Cause {
    fn from(number: u32) -> Cause {
        Cause::of(number)
    }
}
