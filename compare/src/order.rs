//! Orders of axes, and the lengths along them.

/// Every order of so many axes.
pub fn every(axes: usize) -> Vec<Vec<usize>> {
    if axes == 0 {
        return vec![Vec::new()];
    }
    let mut longer = Vec::new();
    for order in every(axes - 1) {
        for place in 0..axes {
            let mut order = order.clone();
            order.insert(place, axes - 1);
            longer.push(order);
        }
    }
    longer
}

/// Whether lengths never rise along the order; equal neighbours are no rise.
pub fn never_rises(lengths: &[u64], order: &[usize]) -> bool {
    order.windows(2).all(|pair| lengths[pair[1]] <= lengths[pair[0]])
}
