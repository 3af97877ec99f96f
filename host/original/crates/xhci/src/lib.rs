//! The types of the crate xhci that the original's device layer names.
//! The setters of contexts write at the places of xHCI 1.2, section 6.2.
#![forbid(unsafe_code)]

pub mod context;
pub mod registers;
pub mod ring;
