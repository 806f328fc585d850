//! Held: a board's cells of the choices that are formed and not yet finished.

use crate::board::{is_lead, Boards};
use crate::choice::{self, Choice};
use crate::plan::Plan;
use crate::price::last_summed;
use crate::steps::Step;

/// The positions at which a choice is held: from `formed` up to, not including,
/// `finished`.
struct Span {
    choice: Choice,
    parent: Choice,
    formed: usize,
    finished: usize,
}

pub struct Held<'a> {
    boards: Boards<'a>,
    spans: Vec<Span>,
}

impl Held<'_> {
    pub fn new<'a>(plan: &'a Plan, steps: &[Step]) -> Held<'a> {
        Held::on(Boards::new(plan), steps)
    }

    pub fn on<'a>(boards: Boards<'a>, steps: &[Step]) -> Held<'a> {
        let choices = 0..choice::full(boards.plan.axes());
        let spans = choices.map(|choice| span(boards.plan, steps, choice)).collect();
        Held { boards, spans }
    }

    /// The sum over every choice held at this position.
    pub fn at(&self, position: usize, board: u64) -> u64 {
        let held = |span: &&Span| span.formed <= position && position < span.finished;
        // The parent's leads form the child's cells; senders keep them too.
        let formed_here = |span: &&Span| is_lead(self.boards.plan, board, span.parent);
        let spans = self.spans.iter().filter(held).filter(formed_here);
        spans.map(|span| self.boards.cells(board, span.choice)).sum()
    }
}

fn span(plan: &Plan, steps: &[Step], choice: Choice) -> Span {
    let parent = choice | 1 << last_summed(plan, choice);
    let formed = position_after(steps, Step::Expand(parent));
    let finished = position_after(steps, Step::Finish(choice));
    Span { choice, parent, formed, finished }
}

fn position_after(steps: &[Step], wanted: Step) -> usize {
    let index = steps.iter().position(|&step| step == wanted);
    index.expect("each choice is formed once and finished once") + 1
}
