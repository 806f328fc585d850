//! A choice is the set of kept axes, as a mask with bit d set for axis d.

pub type Choice = u8;

pub fn full(axes: usize) -> Choice {
    (0..axes).fold(0, |mask, axis| mask | 1 << axis)
}

pub fn keeps(choice: Choice, axis: usize) -> bool {
    choice >> axis & 1 == 1
}

pub fn without(choice: Choice, axis: usize) -> Choice {
    choice & !(1 << axis)
}

pub fn cells(lengths: &[u64], choice: Choice) -> u64 {
    let kept = |&(axis, _): &(usize, &u64)| keeps(choice, axis);
    let lengths = lengths.iter().enumerate().filter(kept);
    lengths.map(|(_, &length)| length).product()
}

/// Every choice but the full one, in the order of the finishes: each after its
/// own children, children from right to left.
pub fn in_finishing_order(order: &[usize]) -> Vec<Choice> {
    let mut finished = Vec::new();
    finish_children(order, 0, full(order.len()), &mut finished);
    finished
}

/// The children of `choice` sum out one more of the axes from place `first` on.
fn finish_children(order: &[usize], first: usize, choice: Choice, finished: &mut Vec<Choice>) {
    for place in (first..order.len()).rev() {
        let child = without(choice, order[place]);
        finish_children(order, place + 1, child, finished);
        finished.push(child);
    }
}
