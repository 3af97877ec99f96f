// The routes as words.
impl TransferResultHandler {
    pub(crate) fn load_routes(&self, words: &[u64]) {
        let mut routes = self.inner.lock();
        for (index, &word) in words.iter().enumerate().filter(|(_, word)| **word != 0) {
            let id = TransQueueId { slot_id: (index / 32) as u8, ep_id: (index % 32) as u8 };
            routes.insert(id, Finished::new(word.into()));
        }
    }

    pub(crate) fn store_routes(&self, words: &mut [u64]) {
        words.fill(0);
        for (id, queue) in self.inner.lock().iter() {
            words[32 * usize::from(id.slot_id) + usize::from(id.ep_id)] = queue.ring.raw();
        }
    }
}
