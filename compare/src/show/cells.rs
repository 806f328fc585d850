//! The cells of a group as a table. One kept axis goes down the page. Of several the last
//! goes across, and a line begins with the positions of the others. An axis too long to go
//! across goes on in further lines, which then begin with its position as well.

use std::fmt::Display;

use crate::choice;
use crate::report::Group;

const WIDEST_LINE: usize = 100;

/// A position before the cells, as wide as `axis 0` with two blanks before it.
const LABEL: usize = 8;

/// Cells on a line when not all fit: the first of these that does.
const ROUND: [usize; 4] = [10, 5, 2, 1];

struct Layout {
    /// How many of the kept axes have their position before the cells.
    labels: usize,
    heads: Vec<String>,
    /// The width of a column.
    column: usize,
    says: String,
}

pub fn table(lengths: &[u64], group: &Group) -> String {
    let kept: Vec<usize> =
        (0..lengths.len()).filter(|&axis| choice::keeps(group.choice, axis)).collect();
    let extents: Vec<usize> = kept.iter().map(|&axis| lengths[axis] as usize).collect();
    let layout = layout(&kept, &extents, &group.cells);
    let names: Vec<String> = kept.iter().map(|axis| format!("axis {axis}")).collect();
    let mut text = format!("{}{}\n", title(&kept, group), layout.says);
    text += &layout.line(&names, &layout.heads);
    text + &rows(&extents, &group.cells, &layout)
}

fn title(kept: &[usize], group: &Group) -> String {
    let axes = match kept {
        [one] => format!("axis {one}"),
        several => format!("axes {}", joined(several)),
    };
    let cells = match group.cells.len() {
        1 => "1 cell".to_string(),
        several => format!("{several} cells"),
    };
    format!("group {} keeps {axes}: {cells}", group.choice)
}

fn joined(axes: &[usize]) -> String {
    let names: Vec<String> = axes.iter().map(usize::to_string).collect();
    let (last, others) = names.split_last().expect("a table keeps an axis");
    format!("{} and {last}", others.join(", "))
}

fn layout(kept: &[usize], extents: &[usize], cells: &[i64]) -> Layout {
    let axes = kept.len();
    let (last, extent) = (kept[axes - 1], extents[axes - 1]);
    let widest = cells.iter().map(|cell| cell.to_string().len()).max().unwrap_or(0);
    // Two digits of a position fit too: no more than 25 columns do.
    let column = widest.max(2) + 2;
    let fit = |labels: usize| (WIDEST_LINE - labels * LABEL) / column;
    if axes == 1 {
        let (heads, column) = (vec!["total".to_string()], column.max(LABEL));
        return Layout { labels: 1, heads, column, says: String::new() };
    }
    if extent <= fit(axes - 1) {
        let heads = (0..extent).map(|position| position.to_string()).collect();
        return Layout { labels: axes - 1, heads, column, says: format!(", axis {last} across") };
    }
    let across = ROUND.into_iter().find(|&some| some <= fit(axes)).unwrap_or(1);
    let heads = (0..across).map(|further| format!("+{further}")).collect();
    let says = format!(", axis {last} across, {across} on a line");
    Layout { labels: axes, heads, column, says }
}

impl Layout {
    fn line<L: Display, C: Display>(&self, labels: &[L], cells: &[C]) -> String {
        let labels = labels[..self.labels].iter().map(|label| format!("{label:>LABEL$}"));
        let cells = cells.iter().map(|cell| format!("{cell:>width$}", width = self.column));
        labels.chain(cells).collect::<String>() + "\n"
    }
}

fn rows(extents: &[usize], cells: &[i64], layout: &Layout) -> String {
    let (mut text, mut number) = (String::new(), 0);
    for row in cells.chunks(extents[extents.len() - 1]) {
        for part in row.chunks(layout.heads.len()) {
            text += &layout.line(&positions(extents, number), part);
            number += part.len();
        }
    }
    text
}

/// Row-major in axis order, the last axis fastest.
fn positions(extents: &[usize], number: usize) -> Vec<usize> {
    let mut rest = number;
    let mut positions = vec![0; extents.len()];
    for (position, extent) in positions.iter_mut().zip(extents).rev() {
        *position = rest % extent;
        rest /= extent;
    }
    positions
}
