// What the rest of the crate names of a module that is private there.
pub(crate) use super::kcore::Core;
pub(crate) use super::xhci::Dci;
pub(crate) use super::xhci::device::layer;
