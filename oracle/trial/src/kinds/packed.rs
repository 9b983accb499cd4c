//! Calls of an operation that has another's kinds: on B as its lower triangle those of the square form,
//! packed; of the strict step those of the step.

use crate::draw::Draw;
use reference::call::Call;
use reference::shape::Op;
use reference::triangle;

/// The call of a maker; for an operation on a triangle that of the square form, packed; for the strict
/// step that of the step.
pub fn make(op: Op, maker: fn(Op, u64, &mut Draw) -> Call, index: u64, draw: &mut Draw) -> Call {
    let Some(square) = op.square() else {
        return Call { op, ..maker(op, index, draw) };
    };
    let mut inputs = maker(square, index, draw);
    let n = inputs.sizes[0];
    if let Some(b) = inputs.inputs.first_mut() {
        *b = triangle::packed(n, b);
    }
    Call::new(op, &[n], inputs.inputs)
}
