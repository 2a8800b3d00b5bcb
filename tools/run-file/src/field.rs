//! The kinds of fields, and fields.

use crate::body::{counts_fit, Body, Counts};
use crate::bytes::Reader;

/// Tag and length.
pub const HEADER: usize = 3;

/// Hands a macro the kinds: the name, the body and the tag of each, by their tags, which begin at 1 and have no gap. What
/// another package says of each kind it says in a trait for the types of `kind`, and goes by this list from a field to it.
#[macro_export]
macro_rules! for_each_kind {
    ($macro:ident) => {
        $macro! {
            Start($crate::SetBody) = 1,
            Step($crate::Step) = 2,
            Disturbance(Vec<i128>) = 3,
            Independent($crate::SetBody) = 4,
            Tied($crate::SetBody) = 5,
            Reduce($crate::Reduction) = 6,
            Check(Vec<$crate::Halfspace>) = 7,
            Hull($crate::SetBody) = 8,
            Ranged($crate::RangedStep) = 9,
        }
    };
}

/// A kind of field, by the body that its fields have.
pub trait Kind {
    type Body: Body;
}

macro_rules! define {
    ($($name:ident($body:ty) = $tag:literal,)*) => {
        #[derive(Clone, Copy, Debug, PartialEq, Eq)]
        pub enum Tag {
            $($name = $tag,)*
        }

        #[derive(Clone, Debug, PartialEq, Eq)]
        pub enum Field {
            $($name($body),)*
        }

        /// The kinds as types, which have no values.
        pub mod kind {
            $(pub enum $name {})*
        }

        $(impl Kind for kind::$name {
            type Body = $body;
        })*

        impl Tag {
            /// From the start set's on, without a gap.
            pub const ALL: &'static [Tag] = &[$(Tag::$name,)*];

            pub fn counts(self) -> Counts {
                match self { $(Tag::$name => <$body>::COUNTS,)* }
            }

            /// The length that the counts give with which the body begins.
            pub fn length(self, body: &[u8]) -> usize {
                match self { $(Tag::$name => <$body>::length(&mut Reader::new(body)),)* }
            }

            /// The field with this body, which has the length that its counts give.
            pub fn decode(self, body: &[u8]) -> Field {
                match self { $(Tag::$name => Field::$name(<$body>::decode(&mut Reader::new(body))),)* }
            }
        }

        impl Field {
            pub fn tag(&self) -> Tag {
                match self { $(Field::$name(_) => Tag::$name,)* }
            }

            pub fn encode_body(&self) -> Vec<u8> {
                let mut bytes = Vec::new();
                match self { $(Field::$name(body) => body.encode(&mut bytes),)* }
                bytes
            }
        }
    };
}

for_each_kind!(define);

impl Tag {
    /// The tag that is written as this byte, if there is one.
    pub fn of(byte: u8) -> Option<Tag> {
        Tag::ALL.iter().copied().find(|tag| *tag as u8 == byte)
    }

    /// Whether the counts that the body begins with are within their limits.
    pub fn counts_fit(self, body: &[u8]) -> bool {
        counts_fit(self.counts(), body)
    }
}

impl Field {
    /// Tag, length and body. Each number has to fit its bytes, else what does not fit is cut off.
    pub fn encode(&self) -> Vec<u8> {
        let body = self.encode_body();
        let mut bytes = vec![self.tag() as u8];
        bytes.extend((body.len() as u16).to_le_bytes());
        bytes.extend(body);
        bytes
    }
}

/// The tag and the body of the field at the front of the input; none if the input ends inside it.
pub fn whole(input: &[u8]) -> Option<(u8, &[u8])> {
    let [tag, low, high, rest @ ..] = input else { return None };
    Some((*tag, rest.get(..usize::from(u16::from_le_bytes([*low, *high])))?))
}
