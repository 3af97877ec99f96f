//! The layers by name.
#![forbid(unsafe_code)]

pub mod program;

use scenario::{Functions, Layer};

pub fn layer(name: &str) -> Option<Box<dyn Layer>> {
    match name {
        "library" => Some(Box::new(library::Library)),
        "model" => Some(Box::new(model::Model)),
        "original" => original::layer(),
        _ => None,
    }
}

/// The functions outside a slot, of the layers that have them. The original has none.
pub fn functions(name: &str) -> Option<Box<dyn Functions>> {
    match name {
        "library" => Some(Box::new(library::Library)),
        "model" => Some(Box::new(model::Model)),
        _ => None,
    }
}
