//! Nothing runs beside the scripted bus, so a barrier does nothing.
#![forbid(unsafe_code)]

pub fn mb() {}
