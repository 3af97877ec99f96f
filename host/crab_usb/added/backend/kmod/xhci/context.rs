// Follows crab-usb's context.rs.

impl ContextData {
    /// The bytes of the input context.
    pub fn input(&self) -> Vec<u8> {
        match self {
            ContextData::Context32(ctx) => bytes(&ctx.input.read_cpu()).to_vec(),
            ContextData::Context64(ctx) => bytes(&ctx.input.read_cpu()).to_vec(),
        }
    }

    /// Writes the whole input context, of its own length.
    pub fn write_input(&mut self, input: &[u8]) {
        match self {
            ContextData::Context32(ctx) => ctx.input.write_cpu(context(input)),
            ContextData::Context64(ctx) => ctx.input.write_cpu(context(input)),
        }
    }

    /// Whether the controller calls an endpoint running (xHCI 1.2, 6.2.3: state 1).
    pub fn is_running(&self, dci: u8) -> bool {
        let state = |output: &[u8]| output[usize::from(dci) * (output.len() / 32)] & 7;
        let state = match self {
            ContextData::Context32(ctx) => state(bytes(&ctx.out.read_cpu())),
            ContextData::Context64(ctx) => state(bytes(&ctx.out.read_cpu())),
        };
        state == 1
    }
}

impl DeviceContextList {
    /// How many slots the controller has.
    pub fn max_slots(&self) -> usize {
        self.max_slots
    }
}

/// A context is doublewords, lowest byte first, and nothing between them.
fn bytes<T>(context: &T) -> &[u8] {
    // SAFETY: each of its bytes may be read.
    unsafe { core::slice::from_raw_parts(core::ptr::from_ref(context).cast(), size_of::<T>()) }
}

fn context<T>(bytes: &[u8]) -> T {
    assert_eq!(bytes.len(), size_of::<T>());
    // SAFETY: the bytes are as many as a context has, and any doublewords are one.
    unsafe { bytes.as_ptr().cast::<T>().read_unaligned() }
}
