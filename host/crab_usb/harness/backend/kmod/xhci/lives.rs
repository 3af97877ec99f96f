// Lives of devices, through the functions that crab-usb's code above calls.
use dma_api::DmaDirection;
use usb_if::endpoint::{RequestId, TransferBuffer, TransferRequest};
use usb_if::transfer::Direction;
use xhci::ring::trb::command::{Allowed, DisableSlot};
use xhci::ring::trb::event::{CommandCompletion, CompletionCode, TransferEvent};
use xhci_device::{Answer, Command};

use super::super::super::ring::SendRing;
use super::*;
use crate::device::{Device as Above, InterfaceSession};

const SLOT: u8 = 2;

/// Interface 0: 0x81; or 0x81 and 0x02. Interface 1: 0x83.
const LIST: [u32; 8] =
    [0x0040_0000, 0x4000_0000, 0xA384_0410, 0x4000_4000, 0xA384_0410, 0x8520_0400, 0x4040_0000, 0xA784_0410];

fn port() -> BringUp {
    BringUp { speed: 3, port: 1, root_port: 1, header: 8, packet: 64, list: LIST.to_vec(), ..BringUp::default() }
}

/// The outcomes of the commands that come.
fn outcomes(outcomes: &[u8]) {
    bus::begin(script(&port(), outcomes).unwrap_or_default());
}

/// The commands that were sent since.
fn sent() -> Vec<String> {
    let name = |word: &u32| Command::of(*word).map_or(format!("{word:08x}"), |command| command.to_string());
    bus::end().sent.iter().map(name).collect()
}

fn done<T>(future: impl Future<Output = T>) -> T {
    match poll(future) {
        Poll::Ready(value) => value,
        Poll::Pending => panic!("a command has no outcome"),
    }
}

fn controller() -> Xhci {
    dma_api::set_page_size(64);
    Xhci::scripted(SLOT, 3, false).unwrap_or_else(|_| panic!())
}

/// A device that was not brought up, with rings at 0x1000, 0x2000 and so on.
fn attached(host: &mut Xhci) -> Device {
    dma_api::place((1..=64).map(|at| 0x1000 * at));
    done(Device::new(host)).unwrap_or_else(|_| panic!())
}

fn init(host: &mut Xhci, device: &mut Device) -> Result {
    let info = address_info(&port()).unwrap_or_else(|_| panic!());
    done(device.init(host, &info))
}

fn brought_up() -> (Xhci, Above) {
    let mut host = controller();
    let mut device = attached(&mut host);
    outcomes(&[0; 64]);
    assert!(init(&mut host, &mut device).is_ok());
    (host, Above::from(device))
}

fn claim(device: &mut Above, interface: u8) -> InterfaceSession {
    outcomes(&[0; 64]);
    done(device.claim_interface(interface, 0)).unwrap_or_else(|_| panic!())
}

fn handle(session: &InterfaceSession, address: u8) -> EndpointHandle {
    session.endpoint(address).unwrap_or_else(|_| panic!("no endpoint {address:x}"))
}

fn submit(handle: &EndpointHandle) -> core::result::Result<RequestId, TransferError> {
    handle.submit(TransferRequest::Interrupt { direction: Direction::In, buffer: Some(TransferBuffer { len: 8 }) })
}

/// An event of the controller. Whether a ring took it.
fn event(host: &Xhci, dci: u8, trb: u64, code: CompletionCode) -> bool {
    // SAFETY: no step runs.
    unsafe { host.transfer_result_handler.set_finished(SLOT, dci, trb.into(), TransferEvent::new(code, 0)) }
}

/// A transfer that the controller completes at a place.
fn credited(host: &Xhci, handle: &EndpointHandle, dci: u8, trb: u64) -> bool {
    let Ok(id) = submit(handle) else { return false };
    event(host, dci, trb, CompletionCode::Success) && handle.reclaim(id).is_ok_and(|completion| completion.is_some())
}

fn is_revoked<T>(result: core::result::Result<T, TransferError>) -> bool {
    matches!(result, Err(TransferError::EndpointRevoked))
}

fn routes(host: &Xhci) -> Vec<(usize, u64)> {
    let words = host.transfer_result_handler.routes().into_iter().enumerate();
    words.filter(|word| word.1 != 0).map(|(at, ring)| (at - 32 * usize::from(SLOT), ring)).collect()
}

#[test]
fn from_the_port_to_the_unplugging() {
    let (host, mut device) = brought_up();
    let up = ["Address", "ReadHeader", "Evaluate", "ReadConfiguration", "ReadDevice", "ReadConfig 0"];
    assert_eq!(sent()[..6], up);
    assert_eq!((device.configurations().len(), device.slot_id()), (1, SLOT));
    assert_eq!(routes(&host), [(1, 0x1000)]);

    let mut session = claim(&mut device, 0);
    let first = handle(&session, 0x81);
    assert!(credited(&host, &first, 3, 0x2000) && credited(&host, &first, 3, 0x2010));
    let waiting = submit(&first).unwrap_or_else(|_| panic!());

    outcomes(&[0; 64]);
    assert!(done(session.set_alternate(&mut device, 1)).is_ok());
    assert_eq!(sent(), ["Stop Dci 3", "Configure", "SetInterface 0, alternate 1"]);
    assert_eq!(routes(&host), [(1, 0x1000), (3, 0x3000), (4, 0x4000)]);
    assert!(matches!(first.reclaim(waiting), Err(TransferError::Cancelled)));
    assert!(is_revoked(done(first.reset())) && is_revoked(submit(&first)));
    assert!(!event(&host, 3, 0x2020, CompletionCode::Success), "a late completion of the setting given up");
    assert!(credited(&host, &handle(&session, 0x81), 3, 0x3000));

    let second = claim(&mut device, 1);
    assert_eq!(routes(&host), [(1, 0x1000), (3, 0x3000), (4, 0x4000), (7, 0x2000)]);
    assert!(is_revoked(submit(&first)));
    first.reactivate();
    assert!(is_revoked(submit(&first)), "its ring is interface 1's");
    assert!(credited(&host, &handle(&second, 0x83), 7, 0x2000));

    outcomes(&[0; 64]);
    let hub = HubParams {
        num_ports: 4,
        multi_tt: false,
        tt_think_time_ns: 666,
        parent_hub_slot_id: 0,
        root_hub_port_number: 0,
    };
    assert!(done(device.update_hub(hub)).is_ok());
    assert!(done(session.release(&mut device)).is_ok());
    assert!(done(device.set_configuration(1)).is_ok());
    assert_eq!(routes(&host), [(1, 0x1000)]);
    outcomes(&[0; 64]);
    assert!(done(device.disconnect()).is_ok());
    assert_eq!(sent(), ["Stop Dci 1", "Disable"]);
    assert_eq!(routes(&host), []);
    assert!(is_revoked(submit(&first)) && !device.as_raw::<Device>().in_use);
}

#[test]
fn a_claim_that_is_dropped() {
    let (host, mut device) = brought_up();
    let session = claim(&mut device, 1);
    outcomes(&[0]);
    assert!(poll(device.claim_interface(0, 0)).is_pending());
    assert_eq!(sent(), ["Configure", "SetInterface 0, alternate 0"]);
    let below = device.as_raw_mut::<Device>();
    assert_eq!((below.answer(), below.record().is_usable(), below.record().is_up()), (Answer::Cut, false, true));
    assert!(below.record().quarantined().eq([0x3000]));
    assert!(credited(&host, &handle(&session, 0x83), 7, 0x2000), "the other interface goes on");

    outcomes(&[]);
    assert!(matches!(poll(device.claim_interface(0, 0)), Poll::Ready(Err(USBError::InterfaceBroken))));
    assert!(matches!(poll(device.disconnect()), Poll::Ready(Err(USBError::InterfaceBroken))));
    assert_eq!(sent(), [""; 0], "src/device.rs does not unplug what is broken");

    outcomes(&[0; 64]);
    let below = device.as_raw_mut::<Device>();
    assert!(done(below.disconnect()).is_ok());
    assert_eq!(sent(), ["Stop Dci 1", "Stop Dci 7", "Disable"]);
    assert_eq!((routes(&host), below.in_use), (vec![], false));
}

/// Nobody has the device any more: what the controller may use stays.
#[test]
fn a_bring_up_that_is_dropped() {
    let mut host = controller();
    let mut device = attached(&mut host);
    outcomes(&[0]);
    let info = address_info(&port()).unwrap_or_else(|_| panic!());
    assert!(poll(device.init(&mut host, &info)).is_pending());
    drop(device);
    assert_eq!(routes(&host), [(1, 0x1000)]);
    assert!(event(&host, 1, 0x1000, CompletionCode::Success));

    let (host, mut device) = brought_up();
    outcomes(&[0; 64]);
    assert!(done(device.disconnect()).is_ok());
    drop(device);
    host.transfer_result_handler.load_routes(&[0x1000; 32 * 4]);
    assert!(!event(&host, 1, 0x1000, CompletionCode::Success), "its rings are the kernel's again");
}

#[test]
fn a_switch_that_is_undone() {
    let (host, mut device) = brought_up();
    let mut session = claim(&mut device, 0);
    let endpoint = handle(&session, 0x81);
    assert!(credited(&host, &endpoint, 3, 0x2000));
    outcomes(&[0, 0, 6, 0, 0]);
    let switched = done(session.set_alternate(&mut device, 1));
    assert!(matches!(switched, Err(USBError::TransferError(TransferError::Scripted(6)))));
    assert_eq!(device.as_raw::<Device>().answer(), Answer::Failed(1), "the first error of the call");
    assert!(credited(&host, &endpoint, 3, 0x2000), "the ring was begun anew");
}

/// Of two endpoints the second is not stopped, and the first goes on.
#[test]
fn what_was_under_way_on_a_stopped_endpoint() {
    let (host, mut device) = brought_up();
    let mut session = claim(&mut device, 0);
    outcomes(&[0; 64]);
    assert!(done(session.set_alternate(&mut device, 1)).is_ok());
    let [input, output] = [0x81, 0x02].map(|address| handle(&session, address));
    let into = submit(&input).unwrap_or_else(|_| panic!());
    let bulk = TransferRequest::Bulk { direction: Direction::Out, buffer: Some(TransferBuffer { len: 8 }) };
    let out = output.submit(bulk).unwrap_or_else(|_| panic!());
    outcomes(&[0, 7, 0]);
    assert!(done(session.set_alternate(&mut device, 0)).is_err());
    assert_eq!(sent(), ["Stop Dci 4", "Stop Dci 3", "Resume Dci 4"]);
    assert!(matches!(output.reclaim(out), Err(TransferError::Cancelled)));
    assert!(event(&host, 3, 0x3000, CompletionCode::Success) && input.reclaim(into).is_ok_and(|done| done.is_some()));
}

#[test]
fn a_handle_that_the_record_calls_revoked() {
    let (_, mut device) = brought_up();
    let mut session = claim(&mut device, 0);
    outcomes(&[0, 7, 5]);
    assert!(done(session.set_alternate(&mut device, 1)).is_err());
    let endpoint = handle(&session, 0x81);
    assert!(endpoint.is_active(), "made so by src/device.rs");
    assert!(is_revoked(submit(&endpoint)));
}

#[test]
fn a_bring_up_that_fails() {
    let mut host = controller();
    let mut device = attached(&mut host);
    outcomes(&[0, 7, 0]);
    let failed = init(&mut host, &mut device);
    assert!(matches!(failed, Err(USBError::TransferError(TransferError::Scripted(7)))));
    assert_eq!(sent(), ["Address", "ReadHeader", "Disable"]);
    assert_eq!((routes(&host), device.in_use), (vec![], false));
    drop(device);

    let mut device = attached(&mut host);
    outcomes(&[0, 7, 9]);
    assert!(init(&mut host, &mut device).is_err());
    assert_eq!((routes(&host), device.in_use), (vec![(1, 0x1000)], true), "the slot is not disabled");

    let mut host = controller();
    let mut device = attached(&mut host);
    outcomes(&[0]);
    let info =
        DeviceAddressInfo { port_speed: usb_if::Speed::Wireless, ..address_info(&port()).unwrap_or_else(|_| panic!()) };
    assert!(matches!(done(device.init(&mut host, &info)), Err(USBError::Other(_))));
    assert_eq!((sent(), device.answer()), (vec!["Disable".to_string()], Answer::Speed));
}

#[test]
fn a_device_that_sends_what_cannot_be_used() {
    let mut host = controller();
    let mut device = attached(&mut host);
    let cut_off = vec![vec![9, 2, 25, 0, 1, 1, 0, 0x80, 50]];
    bus::begin(Script { raw: cut_off, ..script(&port(), &[0; 64]).unwrap_or_default() });
    let failed = init(&mut host, &mut device);
    assert!(matches!(failed, Err(USBError::Other(text)) if text.0.starts_with("ReadConfig 0: ")));
    assert_eq!(sent()[5..], ["ReadConfig 0", "Disable"]);
}

/// What an undoing Configure has added runs already.
#[test]
fn a_running_endpoint_is_resumed_by_its_doorbell() {
    let (host, mut device) = brought_up();
    let session = claim(&mut device, 0);
    device.as_raw_mut::<Device>().wire.memory.set_running(3);
    outcomes(&[0, 0, 7, 0]);
    assert!(done(device.set_configuration(1)).is_err());
    let script = bus::end();
    assert_eq!((script.sent.len(), script.rung), (4, vec![3]));
    assert!(credited(&host, &handle(&session, 0x81), 3, 0x2000));
}

#[test]
fn a_halted_control_endpoint_is_reset() {
    let (host, mut device) = brought_up();
    let setup = request::set_interface(0, 0);
    let control = device.ctrl_ep_ref().clone();
    let request = TransferRequest::Control { setup, direction: Direction::Out, buffer: None };
    let id = control.submit(request).unwrap_or_else(|_| panic!());
    assert!(event(&host, 1, 0x1010, CompletionCode::StallError));
    assert!(matches!(control.reclaim(id), Err(TransferError::Stall)));
    outcomes(&[0, 6, 0, 0, 0]);
    assert!(done(device.claim_interface(0, 0)).is_err());
    let sent = sent();
    assert_eq!(sent[1..], ["SetInterface 0, alternate 0", "d0100000", "Resume Dci 1", "Configure"]);
}

#[test]
fn refusals_are_errors_of_crab_usb() {
    let mut host = controller();
    dma_api::place([0x1000, 0x2000]);
    let mut device = done(Device::with_rings(&mut host, 2)).unwrap_or_else(|_| panic!());
    outcomes(&[0; 64]);
    assert!(init(&mut host, &mut device).is_ok());
    outcomes(&[]);
    assert!(matches!(poll(device.claim_interface(0, 9)), Poll::Ready(Err(USBError::NotFound))));
    assert!(matches!(poll(device.claim_interface(0, 1)), Poll::Ready(Err(USBError::NoMemory))));
    assert!(matches!(poll(device.release_interface(0)), Poll::Ready(Err(USBError::NotFound))));
    assert_eq!(sent(), [""; 0]);
}

/// crab-usb boxes what calls these.
#[test]
fn futures_go_to_other_threads() {
    fn is_send(_: impl Send) {}
    let mut host = controller();
    is_send(Device::new(&mut host));
    let mut device = attached(&mut host);
    let info = address_info(&port()).unwrap_or_else(|_| panic!());
    is_send(device.init(&mut host, &info));
}

/// What docs/CRAB-USB.md says of the rest.
#[test]
#[should_panic(expected = "take_waiter called multiple times for the same addr")]
fn a_command_ring_of_crab_usb_goes_round_once() {
    let ring = SendRing::<CommandCompletion>::new(DmaDirection::Bidirectional, &Kernel::default());
    let mut ring = ring.unwrap_or_else(|_| panic!("memory"));
    for _ in 0..=ring.usable_capacity() {
        let trb = ring.enque_command(Allowed::DisableSlot(DisableSlot::new()));
        drop(ring.take_finished_future(trb));
    }
}
