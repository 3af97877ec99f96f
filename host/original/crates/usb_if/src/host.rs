use crate::transfer::{Recipient, Request, RequestType};

#[derive(Clone, Debug)]
pub struct ControlSetup {
    pub request_type: RequestType,
    pub recipient: Recipient,
    pub request: Request,
    pub value: u16,
    pub index: u16,
}

pub mod hub {
    #[derive(Clone, Copy, Debug, PartialEq, Eq)]
    pub enum Speed {
        Full,
        Low,
        High,
        SuperSpeed,
        SuperSpeedPlus,
        Wireless,
    }

    impl Speed {
        /// xHCI's default speed ids.
        pub fn to_xhci_slot_value(&self) -> u8 {
            match self {
                Speed::Full => 1,
                Speed::Low => 2,
                Speed::High => 3,
                Speed::SuperSpeed => 4,
                Speed::SuperSpeedPlus => 5,
                Speed::Wireless => 6,
            }
        }
    }
}
