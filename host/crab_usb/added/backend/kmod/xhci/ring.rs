// Follows crab-usb's ring.rs.

impl<R> SendRing<R> {
    /// Empties the ring and begins it at its base with cycle state 1, as the context of an endpoint says that is added.
    pub fn begin_anew(&mut self) {
        for index in 0..self.ring.len() {
            self.ring.trbs.set_cpu(index, TrbData([0; TRB_LEN]));
        }
        (self.ring.i, self.ring.cycle) = (0, true);
        for addr in self.ring.trb_bus_addr_list() {
            self.finished.clear_finished(addr);
        }
    }
}
