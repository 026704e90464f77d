//! How a call ends: `sengadlit_status_t`, `sengadlit_argument_t` and `sengadlit_error_t`.
use core::ffi::{CStr, c_uint};
use sengadlit::buffer::ShaperError;

macro_rules! named_numbers {
    ($(#[$doc:meta])* $name:ident, $names:ident: $($variant:ident = $c:literal),* $(,)?) => {
        $(#[$doc])*
        #[repr(u32)]
        #[derive(Clone, Copy, Debug, PartialEq, Eq)]
        pub enum $name { $($variant),* }

        /// The names of C, by number.
        pub const $names: &[&CStr] = &[$($c),*];
    };
}

named_numbers! {
    /// `sengadlit_status_t`.
    Status, STATUS_NAMES:
    Done = c"SENGADLIT_DONE",
    Absent = c"SENGADLIT_ABSENT",
    Argument = c"SENGADLIT_ARGUMENT",
    Memory = c"SENGADLIT_MEMORY",
    TooLong = c"SENGADLIT_TOO_LONG",
    UnknownSyllable = c"SENGADLIT_UNKNOWN_SYLLABLE",
    SpansDontCover = c"SENGADLIT_SPANS_DONT_COVER",
    StretchOverflow = c"SENGADLIT_STRETCH_OVERFLOW",
    NotFound = c"SENGADLIT_NOT_FOUND",
    Internal = c"SENGADLIT_INTERNAL",
    InCall = c"SENGADLIT_IN_CALL",
}

named_numbers! {
    /// `sengadlit_argument_t`.
    Argument, ARGUMENT_NAMES:
    None = c"SENGADLIT_ARGUMENT_NONE",
    Shaper = c"SENGADLIT_ARGUMENT_SHAPER",
    Plan = c"SENGADLIT_ARGUMENT_PLAN",
    Font = c"SENGADLIT_ARGUMENT_FONT",
    Tables = c"SENGADLIT_ARGUMENT_TABLES",
    Map = c"SENGADLIT_ARGUMENT_MAP",
    Result = c"SENGADLIT_ARGUMENT_RESULT",
    Pause = c"SENGADLIT_ARGUMENT_PAUSE",
    Range = c"SENGADLIT_ARGUMENT_RANGE",
    Spans = c"SENGADLIT_ARGUMENT_SPANS",
    GlyphId = c"SENGADLIT_ARGUMENT_GLYPH_ID",
    Glyphs = c"SENGADLIT_ARGUMENT_GLYPHS",
    Positions = c"SENGADLIT_ARGUMENT_POSITIONS",
    Direction = c"SENGADLIT_ARGUMENT_DIRECTION",
    ClusterLevel = c"SENGADLIT_ARGUMENT_CLUSTER_LEVEL",
    Properties = c"SENGADLIT_ARGUMENT_PROPERTIES",
    Context = c"SENGADLIT_ARGUMENT_CONTEXT",
    Input = c"SENGADLIT_ARGUMENT_INPUT",
    Features = c"SENGADLIT_ARGUMENT_FEATURES",
    Stages = c"SENGADLIT_ARGUMENT_STAGES",
    Lookups = c"SENGADLIT_ARGUMENT_LOOKUPS",
    Text = c"SENGADLIT_ARGUMENT_TEXT",
    Content = c"SENGADLIT_ARGUMENT_CONTENT",
    Face = c"SENGADLIT_ARGUMENT_FACE",
    Data = c"SENGADLIT_ARGUMENT_DATA",
    Index = c"SENGADLIT_ARGUMENT_INDEX",
    Options = c"SENGADLIT_ARGUMENT_OPTIONS",
    Language = c"SENGADLIT_ARGUMENT_LANGUAGE",
}

/// `sengadlit_error_t`: why a call failed.
#[repr(C)]
#[derive(Clone, Copy, Debug, PartialEq, Eq)]
pub struct Error {
    pub status: Status,
    pub argument: Argument,
    pub index: c_uint,
}

impl Error {
    /// Nothing failed.
    pub const NONE: Self = Error::of(Status::Done);
    /// Memory was refused.
    pub const MEMORY: Self = Error::of(Status::Memory);
    /// A panic was caught.
    pub const INTERNAL: Self = Error::of(Status::Internal);
    /// A call has the buffer.
    pub const IN_CALL: Self = Error::of(Status::InCall);

    const fn of(status: Status) -> Self {
        Error {
            status,
            argument: Argument::None,
            index: 0,
        }
    }

    /// The call doesn't accept an argument.
    #[cold]
    pub fn argument(argument: Argument) -> Self {
        Error {
            argument,
            ..Error::of(Status::Argument)
        }
    }

    /// The same of its part at this place.
    #[cold]
    pub fn argument_at(argument: Argument, index: usize) -> Self {
        Error {
            index: index as c_uint,
            ..Error::argument(argument)
        }
    }
}

impl From<ShaperError> for Error {
    #[cold]
    fn from(error: ShaperError) -> Self {
        match error {
            ShaperError::Memory => Error::of(Status::Memory),
            ShaperError::TooLong => Error::of(Status::TooLong),
            ShaperError::UnknownSyllable(place) => Error {
                index: place as c_uint,
                ..Error::of(Status::UnknownSyllable)
            },
            ShaperError::SpansDontCover => Error::of(Status::SpansDontCover),
            ShaperError::StretchOverflow => Error::of(Status::StretchOverflow),
            // (a refusal that this version of the crate doesn't have)
            _ => Error::of(Status::Internal),
        }
    }
}
