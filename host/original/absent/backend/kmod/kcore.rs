// The common part of controllers: only the names that kmod/mod.rs mentions.
pub(crate) trait CoreOp: 'static {}

pub(crate) struct Core;

impl Core {
    pub(crate) fn new(_backend: impl CoreOp) -> Self {
        Self
    }
}
