//! An endpoint's block in a context (xHCI 1.2, section 6.2.3).

use core::fmt;

use crate::{Dci, library};

/// Which of the two contexts of a slot [`endpoint_block`] shows.
#[derive(Clone, Copy, Debug, PartialEq, Eq, Hash)]
pub enum Context {
    /// The input context: control, slot, and Dci 1 to 31.
    Input,
    /// The output context, which the controller writes: slot, and Dci 1 to 31.
    Output,
}

/// Why no block is shown.
///
/// ```
/// use xhci_device::{BlockRefusal, Context, Dci, endpoint_block};
///
/// // Lengths come before the Dci, and both contexts are of one spacing.
/// assert_eq!(endpoint_block(&[0; 1056], &[0; 2048], Context::Input, Dci(0)), Err(BlockRefusal::ContextLength));
/// let refusal = endpoint_block(&[0; 1056], &[0; 1024], Context::Input, Dci(0)).unwrap_err();
/// assert_eq!((refusal.number(), refusal.to_string().as_str()), (4, "the Dci is not 1 to 31"));
/// ```
#[derive(Clone, Copy, Debug, PartialEq, Eq, Hash)]
#[non_exhaustive]
pub enum BlockRefusal {
    /// The contexts have not 1,056 and 1,024 bytes, nor 2,112 and 2,048.
    ContextLength,
    /// The Dci is not 1 to 31.
    NoEndpoint,
}

impl BlockRefusal {
    pub(crate) fn of(number: u32) -> Option<BlockRefusal> {
        use BlockRefusal::*;
        [ContextLength, NoEndpoint].into_iter().find(|refusal| u32::from(refusal.number()) == number)
    }

    /// The number in 02.
    pub fn number(self) -> u8 {
        match self {
            BlockRefusal::ContextLength => 1,
            BlockRefusal::NoEndpoint => 4,
        }
    }
}

impl fmt::Display for BlockRefusal {
    fn fmt(&self, f: &mut fmt::Formatter<'_>) -> fmt::Result {
        f.write_str(match self {
            BlockRefusal::ContextLength => "a context has a wrong length",
            BlockRefusal::NoEndpoint => "the Dci is not 1 to 31",
        })
    }
}

/// The block of an endpoint in the input or the output context, 32 or 64 bytes of it as they are lent. The spacing is that
/// of the lengths: 1,056 and 1,024 bytes, or 2,112 and 2,048.
///
/// ```
/// use xhci_device::{Context, Dci, endpoint_block};
///
/// let (input, mut output) = ([0; 2112], [0; 2048]);
/// output[3 * 64] = 2; // the endpoint of Dci 3 is halted
/// let block = endpoint_block(&input, &output, Context::Output, Dci(3))?;
/// assert_eq!((block.len(), block[0] & 7), (64, 2));
/// assert!(core::ptr::eq(endpoint_block(&input, &output, Context::Input, Dci(31))?, &input[2048..]));
/// # Ok::<(), xhci_device::BlockRefusal>(())
/// ```
pub fn endpoint_block<'a>(
    input: &'a [u8],
    output: &'a [u8],
    from: Context,
    dci: Dci,
) -> Result<&'a [u8], BlockRefusal> {
    let shown = match from {
        Context::Input => input,
        Context::Output => output,
    };
    let place = library::block([input.len(), output.len()], from == Context::Output, dci)?;
    Ok(&shown[place])
}
