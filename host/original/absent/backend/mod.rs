pub(crate) mod kmod;
pub(crate) mod ty;

pub(crate) use kmod::queue::Dci;
