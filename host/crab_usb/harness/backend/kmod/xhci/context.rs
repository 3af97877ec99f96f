// What a controller writes.
#[cfg(test)]
impl ContextData {
    pub(crate) fn set_running(&mut self, dci: u8) {
        let ContextData::Context32(ctx) = self else { panic!("blocks of 32 bytes") };
        let mut output = bytes(&ctx.out.read_cpu()).to_vec();
        output[32 * usize::from(dci)] = 1;
        ctx.out.write_cpu(context(&output));
    }
}
