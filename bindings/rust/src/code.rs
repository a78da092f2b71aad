//! The codes of faults that share a form.

/// An enum of codes with its numbers.
macro_rules! codes {
    ($(#[$about:meta])* $name:ident { $($(#[$says:meta])* $code:ident = $number:literal,)* }) => {
        $(#[$about])*
        #[derive(Clone, Copy, Debug, PartialEq, Eq, Hash)]
        #[repr(u16)]
        pub enum $name {
            $($(#[$says])* $code = $number,)*
        }

        impl $name {
            /// The number of the code.
            pub fn code(self) -> u16 {
                self as u16
            }

            /// The code with this number, if it is one of these.
            pub(crate) fn of(number: u64) -> Option<Self> {
                match number {
                    $($number => Some(Self::$code),)*
                    _ => None,
                }
            }
        }
    };
}

codes! {
    /// Why bytes are no tile, by the Protocol Buffers encoding or by the schema of a tile.
    WireCode {
        /// A varint ends too early.
        Ends = 101,
        /// A varint is too long: its tenth byte is above 1.
        TooLong = 102,
        /// A field key is 2^32 or more, or its field number is 0.
        BadNumber = 103,
        /// A field key has wire type 3, 4, 6 or 7.
        BadWireType = 104,
        /// A payload runs past the end of its message.
        PastEnd = 105,
        /// A known field has another wire type than its own.
        OtherType = 106,
        /// A field that may occur once occurs again.
        Again = 107,
        /// A required field is missing.
        Missing = 108,
        /// A value has none or several of its fields.
        OneField = 109,
        /// A text isn't UTF-8.
        NotUtf8 = 110,
        /// A number is out of the range of its field.
        OutOfRange = 111,
    }
}

codes! {
    /// What is wrong with the tags of a feature.
    TagCode {
        /// The list has an odd length, so that it is no list of pairs.
        OddLength = 301,
        /// The layer has no key of this index.
        NoKey = 302,
        /// The layer has no value of this index.
        NoValue = 303,
        /// An earlier pair has this key too.
        Repeated = 304,
    }
}

codes! {
    /// Why the geometry of a feature draws no figure of its type.
    CommandCode {
        /// Another command than the one that is due, or a number after all points.
        OtherCommand = 401,
        /// The command that is due, with a count that isn't allowed.
        OtherCount = 402,
        /// The numbers end where more is due.
        Unfinished = 403,
        /// A parameter is 4294967295, which would be -2^31.
        GreatestParameter = 404,
        /// A parameter leads to a coordinate that isn't from -2^30 to 2^30.
        OutOfBounds = 405,
        /// A LineTo leads to where the cursor is.
        NoStep = 406,
    }
}

codes! {
    /// Why a ring can't be a polygon's.
    RingCode {
        /// The last position is the first one, to which ClosePath leads anyway.
        EndsAtItsBeginning = 501,
        /// The ring has no area.
        NoArea = 502,
        /// The feature's first ring is a hole.
        BeginsWithHole = 503,
    }
}
