use std::fmt;

/// In place of anyhow's error: its text.
#[derive(Debug)]
pub struct Text(pub String);

impl<E: std::error::Error> From<E> for Text {
    fn from(error: E) -> Self {
        Text(error.to_string())
    }
}

#[derive(Debug)]
pub enum TransferError {
    Stall,
    QueueFull,
    InvalidEndpoint,
    EndpointRevoked,
    Disconnected,
    NotSupported,
    Cancelled,
    Other(Text),
    /// Not of the original: a command whose outcome was this code.
    Scripted(u8),
}

#[derive(Debug)]
pub enum USBError {
    NoMemory,
    NotFound,
    NotInitialized,
    InvalidParameter,
    SlotLimitReached,
    InterfaceBroken,
    TransferError(TransferError),
    Other(Text),
}

impl fmt::Display for TransferError {
    fn fmt(&self, f: &mut fmt::Formatter<'_>) -> fmt::Result {
        write!(f, "{self:?}")
    }
}

impl fmt::Display for USBError {
    fn fmt(&self, f: &mut fmt::Formatter<'_>) -> fmt::Result {
        write!(f, "{self:?}")
    }
}

impl From<TransferError> for USBError {
    fn from(error: TransferError) -> Self {
        USBError::TransferError(error)
    }
}

impl From<Text> for USBError {
    fn from(text: Text) -> Self {
        USBError::Other(text)
    }
}
