// What a layer over crab-usb's device makes of what it is asked, and of what the device answers.
use std::cell::Cell;
use std::collections::BTreeMap;
use std::panic::{self, AssertUnwindSafe};
use std::pin::pin;
use std::sync::Once;
use std::task::{Context, Poll, Waker};

use scenario::{BringUp, Cannot, Outcome};
use usb_if::err::{TransferError, USBError};

use crate::backend::kmod::DeviceAddressInfo;
use crate::backend::kmod::hub::{HubId, HubInfo, UsbTt};
use crate::err::Result;
use crate::words;

pub(crate) type Polled = Poll<Result<()>>;

/// Polls once: nothing on the scripted bus wakes a future later.
pub(crate) fn poll<T>(future: impl Future<Output = T>) -> Poll<T> {
    pin!(future).poll(&mut Context::from_waker(Waker::noop()))
}

/// 01's number and the code of a 13; the code is 0 where the original keeps none.
pub(crate) fn answer(polled: Polled) -> (u8, u8) {
    match polled {
        Poll::Pending => (15, 0),
        Poll::Ready(Ok(())) => (0, 0),
        Poll::Ready(Err(err)) => match err {
            USBError::NotFound => (8, 0),
            USBError::InvalidParameter => (9, 0),
            USBError::SlotLimitReached => (11, 0),
            USBError::InterfaceBroken => (14, 0),
            USBError::TransferError(TransferError::Scripted(code)) => (13, code),
            USBError::TransferError(TransferError::QueueFull) => (17, 0),
            USBError::TransferError(TransferError::InvalidEndpoint) => (18, 0),
            USBError::Other(text) if text.0.starts_with("short device descriptor header") => (16, 0),
            USBError::Other(text) if text.0.starts_with("xHCI failed to disable") => (13, 0),
            other => panic!("an error that no call gives: {other}"),
        },
    }
}

thread_local! {
    static ASKING: Cell<bool> = const { Cell::new(false) };
}

/// Panics of the original are answers here and print nothing.
pub(crate) fn quiet_panics() {
    static HOOK: Once = Once::new();
    HOOK.call_once(|| {
        let usual = panic::take_hook();
        panic::set_hook(Box::new(move |info| {
            if !ASKING.get() {
                usual(info);
            }
        }));
    });
}

pub(crate) fn ask(call: impl FnOnce() -> Outcome) -> Outcome {
    ASKING.set(true);
    let outcome = panic::catch_unwind(AssertUnwindSafe(call));
    ASKING.set(false);
    outcome.unwrap_or(Err(Cannot::Panics))
}

/// The walk of `address` over the hubs above the device.
pub(crate) fn walk(args: &BringUp) -> core::result::Result<(), Cannot> {
    let words: Vec<_> = args.hubs.iter().map(|word| words::hub(*word)).collect();
    let mut at = args.has_parent.then_some(args.parent as usize);
    let mut steps = 0;
    while let Some(hub) = at.and_then(|index| words.get(index)).filter(|hub| hub.present) {
        if hub.unused != 0 || hub.depth > 4 || hub.speed.is_none() {
            return Err(Cannot::NoSuchInput);
        }
        if hub.depth == -1 {
            break;
        }
        if steps > words.len() {
            return Err(Cannot::WalksForever);
        }
        at = hub.parent;
        steps += 1;
    }
    Ok(())
}

/// The hubs by index.
fn hubs(args: &BringUp) -> BTreeMap<HubId, HubInfo> {
    let words = args.hubs.iter().map(|word| words::hub(*word)).enumerate();
    let info = |hub: words::HubWord| {
        Some(HubInfo {
            parent: hub.parent.map(HubId::new),
            slot_id: hub.slot,
            hub_depth: hub.depth,
            speed: hub.speed?,
            port_id: hub.port,
            tt: UsbTt { multi: hub.multi, think_time_ns: 0 },
        })
    };
    words.filter(|(_, hub)| hub.present).filter_map(|(index, hub)| Some((HubId::new(index), info(hub)?))).collect()
}

pub(crate) fn address_info(args: &BringUp) -> core::result::Result<DeviceAddressInfo, Cannot> {
    Ok(DeviceAddressInfo {
        root_port_id: args.root_port,
        parent_hub: args.has_parent.then_some(HubId::new(args.parent as usize)),
        port_speed: words::speed(args.speed).ok_or(Cannot::NoSuchInput)?,
        port_id: args.port,
        infos: hubs(args),
    })
}
