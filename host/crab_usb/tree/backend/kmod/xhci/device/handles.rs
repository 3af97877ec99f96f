//! The handles of a device's endpoints, as its record has them.

use usb_if::descriptor::EndpointDescriptor;
use xhci_device::{Dci, Record};

use super::super::endpoint::Endpoint as XhciEndpoint;
use super::wire::Wire;
use crate::backend::ty::ep::EndpointHandle;

/// The handle of an endpoint that the record has.
pub(super) struct Published {
    pub(super) ring: u64,
    pub(super) handle: EndpointHandle,
}

fn set_active(handle: &EndpointHandle, active: bool) {
    if active { handle.reactivate() } else { handle.revoke() }
}

impl Wire {
    /// Makes the handles what the record says.
    pub(super) fn follow(&mut self, record: &Record) {
        self.rings = [0; 32];
        self.follow_control(record);
        self.take_back(record);
        for endpoint in record.endpoints() {
            self.follow_endpoint(record, endpoint);
        }
    }

    fn follow_control(&mut self, record: &Record) {
        self.rings[usize::from(Dci::CONTROL.0)] = record.control();
        if let Some(control) = &self.control {
            let active = !record.control_revoked();
            set_active(control, active);
            self.pool.set_active(record.control(), active);
        }
    }

    /// From the endpoints that are gone.
    fn take_back(&mut self, record: &Record) {
        let Wire { eps, pool, .. } = self;
        eps.retain(|address, published| {
            let stays = record.endpoints().any(|e| (e.address, e.ring) == (*address, published.ring));
            if !stays {
                published.handle.revoke();
                pool.end(published.ring);
            }
            stays
        });
    }

    fn follow_endpoint(&mut self, record: &Record, endpoint: xhci_device::Endpoint) {
        self.rings[usize::from(Dci::of_address(endpoint.address).0)] = endpoint.ring;
        if !self.eps.contains_key(&endpoint.address)
            && let Some(published) = self.publish(record, endpoint)
        {
            self.eps.insert(endpoint.address, published);
        }
        if let Some(published) = self.eps.get(&endpoint.address) {
            set_active(&published.handle, endpoint.active);
            self.pool.set_active(endpoint.ring, endpoint.active);
        }
    }

    /// A handle of its own for an endpoint that has come, so that none of an earlier setting can use its ring.
    fn publish(&self, record: &Record, endpoint: xhci_device::Endpoint) -> Option<Published> {
        let alternate = record.held().find(|held| held.interface == endpoint.interface)?.alternate;
        let descriptor = self.descriptor(endpoint.interface, alternate, endpoint.address)?;
        let burst = burst(&self.memory.input(), descriptor.dci());
        let configure = |raw: &mut XhciEndpoint| {
            raw.configure_periodic(descriptor.max_packet_size.into(), burst, descriptor.interval);
        };
        self.pool.endpoint(endpoint.ring, configure)?;
        let handle = EndpointHandle::new(descriptor.into(), self.pool.lease(endpoint.ring)?);
        Some(Published { ring: endpoint.ring, handle })
    }

    /// The last descriptor of an address in the first alternate that matches, as the layer's lookup has it.
    fn descriptor(&self, interface: u8, alternate: u8, address: u8) -> Option<&EndpointDescriptor> {
        let interfaces = self.configurations.iter().flat_map(|configuration| &configuration.interfaces);
        let alternates = interfaces.filter(|i| i.interface_number == interface).flat_map(|i| &i.alt_settings);
        let mut matching = alternates.filter(|setting| setting.alternate_setting == alternate);
        matching.next()?.endpoints.iter().rfind(|endpoint| endpoint.address == address)
    }
}

/// The burst of an endpoint in an input context (xHCI 1.2, 6.2.3): isochronous transfers are cut by it.
fn burst(input: &[u8], dci: u8) -> usize {
    input[(1 + usize::from(dci)) * (input.len() / 33) + 5].into()
}
