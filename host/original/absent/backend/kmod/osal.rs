// What the device layer needs of the operating system: memory.
pub trait KernelOp: Send + Sync {}

#[derive(Clone, Default)]
pub(crate) struct Kernel(dma_api::DeviceDma);

impl core::ops::Deref for Kernel {
    type Target = dma_api::DeviceDma;

    fn deref(&self) -> &Self::Target {
        &self.0
    }
}
