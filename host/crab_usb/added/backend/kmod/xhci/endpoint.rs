// Follows crab-usb's endpoint.rs.

impl Endpoint {
    /// For the command that adds it: its ring is begun anew, and what was under way there is given up.
    pub(crate) fn begin_anew(&mut self, dci: Dci) {
        self.retire_all_after_stop();
        self.ring.begin_anew();
        self.dci = dci;
        self.halted.store(false, Ordering::Release);
        self.reset_in_progress.store(false, Ordering::Release);
    }

    /// Rings the doorbell of an endpoint that the controller calls running.
    pub(crate) fn go_on(&mut self) {
        self.doorbell();
    }

    /// Forgets the requests that were given up: whoever made them uses the ring no more.
    pub(crate) fn forget_requests(&mut self) {
        self.retire_all_after_stop();
        self.stopped_completions.clear();
    }
}
