// What src/device.rs, above these functions, makes of lifecycles that they leave, and of an unplugging
// (docs/DIFFERENCES.md).
use usb_if::err::{TransferError, USBError};

use super::*;

const LIST: [u32; 5] = [0x0040_0000, 0x4000_0000, 0xA384_0410, 0x4000_4000, 0xA320_0000];
const CONTROL: u64 = 0x1000;
const RING: u64 = 0x2000;
const NEXT: u64 = 0x3000;

/// A record of the list that holds nothing, or interface 0 at alternate 0.
fn record(held: bool) -> Record {
    let endpoint = Endpoint { address: 0x81, ring: RING, owner: 0, active: true };
    Record {
        usable: true,
        up: true,
        slot: 1,
        n: 2,
        spacing: 32,
        speed: 3,
        control: CONTROL,
        given: vec![CONTROL, RING, NEXT],
        list: LIST.to_vec(),
        endpoints: if held { vec![endpoint] } else { Vec::new() },
        held: if held { vec![(0, 0)] } else { Vec::new() },
        ..Record::default()
    }
}

/// The table's words: control's ring, and one at Dci 3.
fn routes(ring: u64) -> Vec<u64> {
    let mut routes = vec![0; 96];
    (routes[33], routes[35]) = (CONTROL, ring);
    routes
}

fn outcomes(outcomes: &[u8], rings: &[u64]) {
    bus::begin(Script { outcomes: outcomes.to_vec(), rings: rings.to_vec(), ..Script::default() });
}

/// The device of src/device.rs with interface 0 claimed at alternate 0, its session, and the routes below them.
fn claimed() -> (crate::device::Device, crate::device::InterfaceSession, TransferResultHandler) {
    let record = record(false);
    let descriptors = words::configurations(&LIST, record.speed).expect("descriptors");
    let inner = device(&record, descriptors).unwrap_or_else(|_| panic!());
    let handler = inner.transfer_result_handler.clone();
    handler.load_routes(&routes(0));
    let mut above = crate::device::Device::from(inner);
    outcomes(&[0, 0], &[RING]);
    let Poll::Ready(Ok(session)) = poll(above.claim_interface(0, 0)) else {
        panic!("the claim");
    };
    bus::end();
    (above, session, handler)
}

fn is_active(session: &crate::device::InterfaceSession) -> bool {
    session.endpoint(0x81).unwrap_or_else(|_| panic!("the endpoint")).is_active()
}

/// What the function below leaves of the endpoint, by the layer.
fn below(ring: u64, given: &[u8], call: scenario::Call) -> (u8, bool) {
    let mut buffers = Buffers { ctx: vec![0; 1056], routes: routes(ring), log: vec![0; 64], outcomes: given.to_vec() };
    let (record, answer) = Original::new().call(&record(true), &call, &mut buffers).expect("an answer");
    (answer.number, record.endpoints[0].active)
}

/// A switch whose Configure fails and whose Resume fails too.
#[test]
fn after_13_of_a_claim() {
    let claim = Claim { interface: 0, alternate: 1 };
    assert_eq!(below(RING, &[0, 7, 5], scenario::Call::Claim(claim)), (13, false));
    let (mut above, mut session, _) = claimed();
    outcomes(&[0, 7, 5], &[NEXT]);
    let switched = poll(session.set_alternate(&mut above, 1));
    assert!(matches!(switched, Poll::Ready(Err(USBError::TransferError(TransferError::Scripted(5))))));
    assert!(is_active(&session));
}

/// Another writer has changed the endpoint's route.
#[test]
fn after_18() {
    assert_eq!(below(0x9990, &[0; 8], scenario::Call::Release { interface: 0 }), (18, false));
    let (mut above, mut session, handler) = claimed();
    handler.load_routes(&routes(0x9990));
    outcomes(&[0; 8], &[]);
    let released = poll(session.release(&mut above));
    assert!(matches!(released, Poll::Ready(Err(USBError::TransferError(TransferError::InvalidEndpoint)))));
    assert!(is_active(&session));

    assert_eq!(below(0x9990, &[0; 8], scenario::Call::SetConfiguration { value: 1 }), (18, false));
    outcomes(&[0; 8], &[]);
    let set = poll(above.set_configuration(1));
    assert!(matches!(set, Poll::Ready(Err(USBError::TransferError(TransferError::InvalidEndpoint)))));
    assert!(is_active(&session));
}

/// A device that broke is not unplugged: nothing is sent.
#[test]
fn the_unplugging_of_a_broken_device() {
    let mut buffers = Buffers { ctx: vec![0; 1056], routes: routes(RING), log: vec![0; 64], outcomes: vec![0, 0, 9] };
    let broken = Record { usable: false, ..record(true) };
    let (left, answer) = Original::new().disconnect(&broken, &mut buffers).expect("an answer");
    assert_eq!((answer.number, answer.count, left.quarantined), (14, 3, vec![CONTROL, RING]));

    let (mut above, _session, _) = claimed();
    for sent in [3, 0] {
        outcomes(&[0, 0, 9], &[]);
        assert!(matches!(poll(above.disconnect()), Poll::Ready(Err(USBError::InterfaceBroken))));
        assert_eq!(bus::end().sent.len(), sent);
    }
}

/// A device that was unplugged is accepted again: nothing is sent. (Control's ring stands at Dci 0, where it is
/// looked for.)
#[test]
fn the_unplugging_of_an_unplugged_device() {
    let unplugged = Record { usable: false, up: false, control_revoked: true, ..record(false) };
    let mut buffers = Buffers { ctx: vec![0; 1056], routes: routes(0), log: vec![0; 64], outcomes: vec![0; 64] };
    let (_, answer) = Original::new().disconnect(&unplugged, &mut buffers).expect("an answer");
    assert_eq!((answer.number, answer.count), (12, 0));

    let (mut above, _session, handler) = claimed();
    let mut words = routes(RING);
    words[32] = CONTROL;
    handler.load_routes(&words);
    for sent in [3, 0] {
        outcomes(&[0; 64], &[]);
        assert!(matches!(poll(above.disconnect()), Poll::Ready(Ok(()))));
        assert_eq!(bus::end().sent.len(), sent);
    }
}
