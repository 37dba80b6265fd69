//! What a side says of the library: its functions, numbers and structs.

use crate::value::Numbers;
use std::collections::BTreeMap;
use std::fmt;

/// What crosses: a number or truth by value, or a pointer.
#[derive(Clone, PartialEq, Eq)]
pub enum Kind {
    Value(String),
    Pointer { mutable: bool, to: String },
}

impl fmt::Display for Kind {
    fn fmt(&self, f: &mut fmt::Formatter) -> fmt::Result {
        match self {
            Kind::Value(kind) => write!(f, "{kind}"),
            Kind::Pointer { mutable: true, to } => write!(f, "*mut {to}"),
            Kind::Pointer { mutable: false, to } => write!(f, "*const {to}"),
        }
    }
}

/// A parameter, or a field of a struct, of which there may be `count` one after the other.
#[derive(Clone, PartialEq, Eq)]
pub struct Named {
    pub name: String,
    pub kind: Kind,
    pub count: u64,
}

impl Named {
    pub fn new(name: &str, kind: Kind) -> Named {
        Named { name: name.to_string(), kind, count: 1 }
    }

    /// A text that is no declaration that is known here.
    pub fn unread(text: &str) -> Named {
        Named::new(text, Kind::Value("cannot be read".to_string()))
    }
}

impl fmt::Display for Named {
    fn fmt(&self, f: &mut fmt::Formatter) -> fmt::Result {
        match self.count {
            1 => write!(f, "{}: {}", self.name, self.kind),
            count => write!(f, "{}: [{}; {count}]", self.name, self.kind),
        }
    }
}

#[derive(Clone)]
pub struct Function {
    pub parameters: Vec<Named>,
    pub result: Kind,
}

/// The functions by their names, the numbers by their names without `TILIGORMIS_`, and the structs
/// by their names in Rust.
#[derive(Clone, Default)]
pub struct Side {
    pub functions: BTreeMap<String, Function>,
    pub numbers: Numbers,
    pub structs: BTreeMap<String, Vec<Named>>,
}

impl Side {
    /// How many bytes a kind has; what it points to is not looked at.
    pub fn bytes(&self, kind: &Kind) -> Option<u64> {
        let Kind::Value(name) = kind else { return Some(8) };
        match name.as_str() {
            "u8" | "bool" => Some(1),
            "u16" => Some(2),
            "u32" => Some(4),
            "u64" | "usize" => Some(8),
            name => self.place(name, None),
        }
    }

    /// At which byte of a struct a field begins, or without a field how many bytes the struct has.
    /// Its fields are such that C leaves no gap between them; where they are not, there is no
    /// answer.
    pub fn place(&self, name: &str, field: Option<&str>) -> Option<u64> {
        let mut at = 0;
        for part in self.structs.get(name)? {
            if field == Some(&part.name) {
                return Some(at);
            }
            let bytes = self.bytes(&part.kind)?;
            let aligned = bytes.min(8);
            if at % aligned != 0 {
                return None;
            }
            at += bytes * part.count;
        }
        field.is_none().then_some(at)
    }

    /// Whether a struct has numbers of 64 bits alone, so that it crosses as that many of them.
    pub fn of_numbers(&self, name: &str) -> bool {
        self.structs.get(name).is_some_and(|fields| {
            fields.iter().all(|field| match &field.kind {
                Kind::Value(kind) => kind == "u64" || self.of_numbers(kind),
                Kind::Pointer { .. } => false,
            })
        })
    }
}
