//! Memory that the original shares with a controller, as plain memory. No address is ever followed.

use std::cell::{Cell, RefCell};
use std::collections::VecDeque;
use std::fmt;
use std::mem::MaybeUninit;
use std::ops::Range;

thread_local! {
    static PAGE: Cell<usize> = const { Cell::new(4096) };
    static ADDRESSES: RefCell<VecDeque<u64>> = const { RefCell::new(VecDeque::new()) };
}

/// The size of a page, from here on.
pub fn set_page_size(bytes: usize) {
    PAGE.set(bytes);
}

/// Where the next coherent arrays stand, one after the other. Without an address left they stand at 0.
pub fn place(addresses: impl IntoIterator<Item = u64>) {
    ADDRESSES.set(addresses.into_iter().collect());
}

#[derive(Debug)]
pub enum DmaError {
    NoMemory,
    DmaMaskNotMatch { addr: u64, mask: u64 },
    Unsupported,
}

impl fmt::Display for DmaError {
    fn fmt(&self, f: &mut fmt::Formatter<'_>) -> fmt::Result {
        write!(f, "{self:?}")
    }
}

impl std::error::Error for DmaError {}

#[derive(Clone, Copy, Debug)]
pub struct DmaAddr(u64);

impl DmaAddr {
    pub fn as_u64(self) -> u64 {
        self.0
    }
}

#[derive(Clone, Copy, Debug)]
pub enum DmaDirection {
    Bidirectional,
}

pub struct CoherentBox<T>(Box<T>);

impl<T: Copy> CoherentBox<T> {
    pub fn read_cpu(&self) -> T {
        *self.0
    }

    pub fn write_cpu(&mut self, value: T) {
        *self.0 = value;
    }

    pub fn dma_addr(&self) -> DmaAddr {
        DmaAddr(0)
    }
}

pub struct CoherentArray<T> {
    items: Vec<T>,
    address: u64,
}

impl<T: Copy> CoherentArray<T> {
    pub fn set_cpu(&mut self, index: usize, value: T) {
        self.items[index] = value;
    }

    pub fn read_cpu(&self, index: usize) -> Option<T> {
        self.items.get(index).copied()
    }

    pub fn len(&self) -> usize {
        self.items.len()
    }

    pub fn is_empty(&self) -> bool {
        self.items.is_empty()
    }

    pub fn dma_addr(&self) -> DmaAddr {
        DmaAddr(self.address)
    }
}

pub struct ContiguousArray<T>(Vec<T>);

impl<T> ContiguousArray<T> {
    pub fn prepare_for_device(&self, _bytes: Range<usize>) {}

    pub fn bytes_len(&self) -> usize {
        self.0.len() * size_of::<T>()
    }

    pub fn dma_addr(&self) -> DmaAddr {
        DmaAddr(0)
    }
}

#[derive(Clone, Copy, Debug)]
pub struct DmaConstraints {
    pub addr_mask: u64,
}

#[derive(Clone, Copy, Debug)]
pub struct DmaInfo;

impl DmaInfo {
    pub fn constraints(&self) -> DmaConstraints {
        DmaConstraints { addr_mask: u64::MAX }
    }
}

#[derive(Clone, Copy, Debug, Default)]
pub struct DeviceDma;

impl DeviceDma {
    pub fn page_size(&self) -> usize {
        PAGE.get()
    }

    pub fn info(&self) -> DmaInfo {
        DmaInfo
    }

    pub fn coherent_box_zero_with_align<T: Default>(&self, _align: usize) -> Result<CoherentBox<T>, DmaError> {
        Ok(CoherentBox(Box::default()))
    }

    /// `T` is made of numbers alone, as everything that a controller shares is.
    pub fn coherent_array_zero_with_align<T: Copy>(
        &self,
        len: usize,
        _align: usize,
    ) -> Result<CoherentArray<T>, DmaError> {
        // SAFETY: numbers may be 0.
        let zero: T = unsafe { MaybeUninit::zeroed().assume_init() };
        let address = ADDRESSES.with_borrow_mut(VecDeque::pop_front).unwrap_or(0);
        Ok(CoherentArray { items: vec![zero; len], address })
    }

    pub fn contiguous_array_zero_with_align<T: Default + Clone>(
        &self,
        len: usize,
        _align: usize,
        _direction: DmaDirection,
    ) -> Result<ContiguousArray<T>, DmaError> {
        Ok(ContiguousArray(vec![T::default(); len]))
    }
}
