//! What every toxic has, and how it stands in a script.
use crate::config::quoted;

/// One of the two directions of a connection.
#[derive(Clone, Copy, Debug, PartialEq, Eq)]
pub enum Stream {
    /// From the client to the server.
    Upstream,
    /// From the server to the client.
    Downstream,
}

impl Stream {
    pub(crate) fn word(self) -> &'static str {
        match self {
            Stream::Upstream => "upstream",
            Stream::Downstream => "downstream",
        }
    }
}

/// A toxic of any type, which each of the types is turned into.
#[derive(Clone, Debug, PartialEq, Eq)]
pub struct Toxic {
    texts: Vec<(&'static str, String)>,
    attributes: Vec<(&'static str, u64)>,
}

/// The values with this one in place of an earlier one of its key.
fn with<T>(mut values: Vec<(&'static str, T)>, key: &'static str, value: T) -> Vec<(&'static str, T)> {
    values.retain(|(each, _)| *each != key);
    values.push((key, value));
    values
}

/// A share as the text of its thousandths: 0.1 + 0.2 is `0.3`. One that isn't thousandths stays as it is, and the program refuses it.
fn share_text(share: f64) -> String {
    let rounded = (share * 1000.0).round() / 1000.0;
    let is_rounded = (share - rounded).abs() < 1e-9;
    format!("{}", if is_rounded { rounded } else { share })
}

impl Toxic {
    pub(crate) fn new(kind: &str) -> Self {
        Toxic { texts: vec![("type", kind.to_owned())], attributes: vec![] }
    }

    pub(crate) fn attribute(self, key: &'static str, value: u64) -> Self {
        Toxic { attributes: with(self.attributes, key, value), ..self }
    }

    pub(crate) fn text(self, key: &'static str, value: &str) -> Self {
        Toxic { texts: with(self.texts, key, value.to_owned()), ..self }
    }

    pub(crate) fn share(self, share: f64) -> Self {
        self.text("toxicity", &share_text(share))
    }

    /// The table of the toxic in a script.
    pub(crate) fn lines(&self) -> Vec<String> {
        let mut lines = vec![String::new(), "[[rule.toxic]]".to_owned()];
        lines.extend(self.texts.iter().map(|(key, text)| format!("{key} = {}", quoted(text))));
        let numbers: Vec<_> = self.attributes.iter().map(|(key, value)| format!("{key} = {value}")).collect();
        lines.push(format!("attributes = {{ {} }}", numbers.join(", ")));
        lines
    }
}

/// A type of toxics, with its attributes. Those in parentheses are the parameters of `new`.
macro_rules! toxic_type {
    (
        $(#[$about:meta])*
        $name:ident $kind:literal ($($(#[$required_about:meta])* $required:ident,)*) {
            $($(#[$attribute_about:meta])* $attribute:ident,)*
        }
    ) => {
        $(#[$about])*
        #[derive(Clone, Debug, PartialEq, Eq)]
        #[must_use]
        pub struct $name($crate::Toxic);

        // A type whose attributes must be given has no default.
        #[allow(clippy::new_without_default)]
        impl $name {
            #[doc = concat!("A toxic of the type `", $kind, "`.")]
            $($(#[$required_about])*)*
            pub fn new($($required: u64),*) -> Self {
                Self($crate::Toxic::new($kind)$(.attribute(stringify!($required), $required))*)
            }

            $(
                $(#[$attribute_about])*
                pub fn $attribute(self, $attribute: u64) -> Self {
                    Self(self.0.attribute(stringify!($attribute), $attribute))
                }
            )*

            /// Names it. Without a name it is the type and the stream, such as `latency_downstream`.
            pub fn name(self, name: &str) -> Self {
                Self(self.0.text("name", name))
            }

            /// Sets its stream, which is downstream otherwise.
            pub fn stream(self, stream: $crate::Stream) -> Self {
                Self(self.0.text("stream", stream.word()))
            }

            /// The share of the links that meet it, 0.0 to 1.0 in thousandths, such as 0.25. Otherwise every link does. The program refuses another share at
            /// the start.
            pub fn toxicity(self, share: f64) -> Self {
                Self(self.0.share(share))
            }
        }

        impl From<$name> for $crate::Toxic {
            fn from(toxic: $name) -> Self {
                toxic.0
            }
        }
    };
}
pub(crate) use toxic_type;
