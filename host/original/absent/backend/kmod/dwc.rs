// Another controller: only the names that kmod/mod.rs mentions.
use super::kcore::CoreOp;

pub struct Dwc;
pub struct DwcNewParams<'a>(pub &'a ());
pub struct DwcParams;
pub struct NamedResetLine;
pub struct ResetLine;
pub struct UdphyParam;
pub struct Usb2PhyParam;
pub struct UsbPhyInterfaceMode;

pub mod usb2phy {
    pub struct Usb2PhyPortId;
}

impl Dwc {
    pub fn new(_params: DwcNewParams<'_>) -> crate::err::Result<Self> {
        Ok(Self)
    }
}

impl CoreOp for Dwc {}
