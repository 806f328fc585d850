//! Whether an order of as many as sixteen axes adds up the fewest cells, by its own sums: masks are
//! wider here than a choice's, and no plan has to hold the order.

/// Whether no selection of parents, tree or not, adds up fewer cells than the order's tree.
pub fn fewest(lengths: &[u64], order: &[usize]) -> bool {
    let cells = cells_by_mask(lengths);
    added_of(&cells, order) == least_of(&cells, lengths.len())
}

/// Cells added up along the order's tree.
pub fn added(lengths: &[u64], order: &[usize]) -> u64 {
    added_of(&cells_by_mask(lengths), order)
}

/// The least over all selections of parents.
pub fn least_added(lengths: &[u64]) -> u64 {
    least_of(&cells_by_mask(lengths), lengths.len())
}

/// The cells of every choice, by its mask: each axis doubles the list.
fn cells_by_mask(lengths: &[u64]) -> Vec<u64> {
    let mut cells = vec![1];
    for length in lengths {
        cells.extend_from_within(..);
        let kept = cells.len() / 2;
        cells[kept..].iter_mut().for_each(|cells| *cells *= length);
    }
    cells
}

/// The parent keeps the axis that is summed out last.
fn added_of(cells: &[u64], order: &[usize]) -> u64 {
    let parent = |mask: usize| {
        let last = order.iter().rev().find(|&&axis| mask >> axis & 1 == 0);
        cells[mask | 1 << last.expect("the full choice sums out no axis")]
    };
    (0..cells.len() - 1).map(parent).sum()
}

/// Parents are chosen freely for each choice, so the fewest cells of each add up to the least.
fn least_of(cells: &[u64], axes: usize) -> u64 {
    let cheapest = |mask: usize| {
        let parents = (0..axes).filter(|axis| mask >> axis & 1 == 0);
        let cheapest = parents.map(|axis| cells[mask | 1 << axis]).min();
        cheapest.expect("every choice but the full one has a parent")
    };
    (0..cells.len() - 1).map(cheapest).sum()
}
