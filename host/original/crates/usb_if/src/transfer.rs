#[derive(Clone, Copy, Debug, PartialEq, Eq)]
pub enum Direction {
    Out,
    In,
}

#[derive(Clone, Copy, Debug, PartialEq, Eq)]
pub enum Recipient {
    Interface,
}

#[derive(Clone, Copy, Debug, PartialEq, Eq)]
pub enum RequestType {
    Standard,
}

#[derive(Clone, Copy, Debug, PartialEq, Eq)]
pub enum Request {
    SetInterface,
}

/// Their numbers: USB 2.0, 9.4.
impl From<Request> for u8 {
    fn from(request: Request) -> u8 {
        match request {
            Request::SetInterface => 11,
        }
    }
}

/// bmRequestType (USB 2.0, table 9-2).
#[derive(Clone, Copy, Debug)]
pub struct BmRequestType {
    pub direction: Direction,
    pub request_type: RequestType,
    pub recipient: Recipient,
}

impl From<BmRequestType> for u8 {
    fn from(of: BmRequestType) -> u8 {
        let RequestType::Standard = of.request_type;
        let Recipient::Interface = of.recipient;
        u8::from(of.direction == Direction::In) << 7 | 1
    }
}
