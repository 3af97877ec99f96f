// The table, whole.
impl TransferResultHandler {
    pub(crate) fn load_routes(&self, words: &[u64]) {
        self.inner.lock().words = words.to_vec();
    }

    pub(crate) fn routes(&self) -> Vec<u64> {
        self.inner.lock().words.clone()
    }
}
