//! What a type's form in the frame is, said once: its writer and its reader follow.

/// A struct: its fields, in order. `field in LIMIT` is a text with a limit of its own.
macro_rules! fields {
    ($type:ident { $($field:ident $(in $limit:ident)?),* $(,)? }) => {
        impl $crate::frame::Frame for $type {
            fn write(&self, to: &mut Vec<u8>) -> Result<(), $crate::frame::EncodeError> {
                let Self { $($field),* } = self;
                $( $crate::forms::put!(to, $field $(, $limit)?); )*
                Ok(())
            }

            fn read(from: &mut $crate::frame::Reader<'_>) -> Result<Self, $crate::frame::DecodeError> {
                Ok(Self { $( $field: $crate::forms::take!(from, $field $(, $limit)?) ),* })
            }
        }
    };
}

/// An enum: its cases, counted from 0, each with its values.
macro_rules! cases {
    ($type:ident {
        $($place:literal = $case:ident
            $( ( $value:ident $(in $limit:ident)? ) )?
            $( { $($field:ident $(in $most:ident)?),* } )?
        ),* $(,)?
    }) => {
        impl $crate::frame::Frame for $type {
            fn write(&self, to: &mut Vec<u8>) -> Result<(), $crate::frame::EncodeError> {
                match self { $(
                    Self::$case $( ( $value ) )? $( { $($field),* } )? => {
                        to.push($place);
                        $( $crate::forms::put!(to, $value $(, $limit)?); )?
                        $( $( $crate::forms::put!(to, $field $(, $most)?); )* )?
                    }
                )* }
                Ok(())
            }

            fn read(from: &mut $crate::frame::Reader<'_>) -> Result<Self, $crate::frame::DecodeError> {
                match from.byte()? {
                    $( $place => Ok(Self::$case
                        $( ( $crate::forms::take!(from, $value $(, $limit)?) ) )?
                        $( { $( $field: $crate::forms::take!(from, $field $(, $most)?) ),* } )?
                    ), )*
                    other => Err(from.defect($crate::frame::Defect::Case(other))),
                }
            }
        }
    };
}

macro_rules! put {
    ($to:ident, $value:ident) => {
        $crate::frame::Frame::write($value, $to)?
    };
    ($to:ident, $value:ident, $limit:ident) => {
        $crate::frame::Limited::write_within($value, $crate::frame::$limit, $to)?
    };
}

macro_rules! take {
    ($from:ident, $value:ident) => {
        $crate::frame::Frame::read($from)?
    };
    ($from:ident, $value:ident, $limit:ident) => {
        $crate::frame::Limited::read_within($crate::frame::$limit, $from)?
    };
}

/// A type of its own for a text.
macro_rules! text {
    ($(#[$attribute:meta])* $type:ident in $limit:ident) => {
        $(#[$attribute])*
        #[derive(Clone, Debug, PartialEq, Eq, Hash)]
        pub struct $type(String);

        impl $type {
            /// Wraps the text.
            #[must_use]
            pub fn new(text: impl Into<String>) -> Self {
                Self(text.into())
            }

            /// The text.
            #[must_use]
            pub fn as_str(&self) -> &str {
                &self.0
            }
        }

        impl $crate::frame::Frame for $type {
            fn write(&self, to: &mut Vec<u8>) -> Result<(), $crate::frame::EncodeError> {
                $crate::frame::Limited::write_within(&self.0, $crate::frame::$limit, to)
            }

            fn read(from: &mut $crate::frame::Reader<'_>) -> Result<Self, $crate::frame::DecodeError> {
                $crate::frame::Limited::read_within($crate::frame::$limit, from).map(Self)
            }
        }
    };
}

/// A type of its own for a number.
macro_rules! number {
    ($(#[$attribute:meta])* $type:ident($number:ident)) => {
        $crate::forms::number_type!($(#[$attribute])* $type($number));

        impl $crate::frame::Frame for $type {
            fn write(&self, to: &mut Vec<u8>) -> Result<(), $crate::frame::EncodeError> {
                self.0.write(to)
            }

            fn read(from: &mut $crate::frame::Reader<'_>) -> Result<Self, $crate::frame::DecodeError> {
                $crate::frame::Frame::read(from).map(Self)
            }
        }
    };
}

/// The type alone.
macro_rules! number_type {
    ($(#[$attribute:meta])* $type:ident($number:ident)) => {
        $(#[$attribute])*
        #[derive(Clone, Copy, Debug, PartialEq, Eq, Hash)]
        pub struct $type($number);

        impl $type {
            /// Wraps the number.
            #[must_use]
            pub const fn new(number: $number) -> Self {
                Self(number)
            }

            /// The number.
            #[must_use]
            pub const fn get(self) -> $number {
                self.0
            }
        }
    };
}

pub(crate) use {cases, fields, number, number_type, put, take, text};
