// Another controller: only the names that kmod/mod.rs mentions.
use super::kcore::CoreOp;

pub struct Dwc2;
pub struct Dwc2FifoSizes;
pub struct Dwc2HostParams;
pub struct Dwc2NewParams;
pub struct Dwc2Quirks;
pub struct Dwc2TransferStats;
pub struct Dwc2UtmiWidth;

impl Dwc2 {
    pub fn new(_params: Dwc2NewParams) -> crate::err::Result<Self> {
        Ok(Self)
    }
}

impl CoreOp for Dwc2 {}
