// Another controller: only the names that kmod/mod.rs mentions.
use super::kcore::CoreOp;

pub struct Ehci;
pub struct EhciNewParams;

impl Ehci {
    pub fn new(_params: EhciNewParams) -> crate::err::Result<Self> {
        Ok(Self)
    }
}

impl CoreOp for Ehci {}
