//! Item 9 of 02: an endpoint's block, as a part of one of two contexts.

use scenario::Side;

/// "The output context has no control block, so 1,024 or 2,048 bytes; a wrong length of either, or two spacings, gives 1,
/// then a Dci outside 1 to 31 gives 4, each with an empty part."
pub fn endpoint_block<'a>(input: &'a [u8], output: &'a [u8], from: Side, dci: u8) -> (u8, &'a [u8]) {
    let is_of = |spacing: &usize| input.len() == 33 * spacing && output.len() == 32 * spacing;
    let Some(spacing) = [32, 64].into_iter().find(is_of) else {
        return (1, &[]);
    };
    if !(1..=31).contains(&dci) {
        return (4, &[]);
    }
    // In the input the control block stands first.
    let (context, before) = match from {
        Side::Input => (input, 1),
        Side::Output => (output, 0),
    };
    let block = context.chunks(spacing).skip(before).nth(dci.into());
    (0, block.unwrap_or_default())
}
