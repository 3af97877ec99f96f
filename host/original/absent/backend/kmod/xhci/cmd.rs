// Commands go to the scripted bus. A resume's command is the new dequeue pointer.
use usb_if::err::TransferError;
use xhci::ring::trb::{
    command::{self, Allowed},
    event::CommandCompletion,
};

use crate::bus;

#[derive(Clone)]
pub struct CommandRing;

fn word(command: &command::Allowed) -> u32 {
    match command {
        Allowed::AddressDevice(_) => bus::word(bus::ADDRESS, 0, 0),
        Allowed::EvaluateContext(_) => bus::word(bus::EVALUATE, 0, 0),
        Allowed::ConfigureEndpoint(_) => bus::word(bus::CONFIGURE, 0, 0),
        Allowed::StopEndpoint(stop) => bus::word(bus::STOP, stop.endpoint, 0),
        Allowed::SetTrDequeuePointer(resume) => bus::word(bus::RESUME, resume.endpoint, 0),
        Allowed::DisableSlot(_) => bus::word(bus::DISABLE, 0, 0),
        Allowed::ResetEndpoint(reset) => bus::word(bus::RESET, reset.endpoint, 0),
        Allowed::Link(_) => unreachable!("it is none"),
    }
}

impl CommandRing {
    pub async fn cmd_request(&mut self, command: command::Allowed) -> Result<CommandCompletion, TransferError> {
        bus::send(word(&command)).await?;
        Ok(CommandCompletion)
    }
}
