//! Wrong draws, and draws put to a wrong use.

use super::{count, halvings, left, right, shifted, up_to};
use super::{After, Drawn, Rules, Shift, Stream, Wrong, RIGHT};

pub const ROUNDS: &[Wrong] = &[
    ("12 left", round(|state| shifted(state, [(left, 12), (right, 17), (left, 5)]))),
    ("14 left", round(|state| shifted(state, [(left, 14), (right, 17), (left, 5)]))),
    ("16 right", round(|state| shifted(state, [(left, 13), (right, 16), (left, 5)]))),
    ("18 right", round(|state| shifted(state, [(left, 13), (right, 18), (left, 5)]))),
    ("4 left", round(|state| shifted(state, [(left, 13), (right, 17), (left, 4)]))),
    ("6 left", round(|state| shifted(state, [(left, 13), (right, 17), (left, 6)]))),
    ("13 right", round(|state| shifted(state, [(right, 13), (right, 17), (left, 5)]))),
    ("17 left", round(|state| shifted(state, [(left, 13), (left, 17), (left, 5)]))),
    ("5 right", round(|state| shifted(state, [(left, 13), (right, 17), (right, 5)]))),
    ("all the other way", round(|state| shifted(state, [(right, 13), (left, 17), (right, 5)]))),
    ("13, 5, 17", round(|state| shifted(state, [(left, 13), (left, 5), (right, 17)]))),
    ("17, 13, 5", round(|state| shifted(state, [(right, 17), (left, 13), (left, 5)]))),
    ("17, 5, 13", round(|state| shifted(state, [(right, 17), (left, 5), (left, 13)]))),
    ("5, 13, 17", round(|state| shifted(state, [(left, 5), (left, 13), (right, 17)]))),
    ("5, 17, 13", round(|state| shifted(state, [(left, 5), (right, 17), (left, 13)]))),
    ("no 13 left", round(|state| shifted(state, [(none, 13), (right, 17), (left, 5)]))),
    ("no 17 right", round(|state| shifted(state, [(left, 13), (none, 17), (left, 5)]))),
    ("no 5 left", round(|state| shifted(state, [(left, 13), (right, 17), (none, 5)]))),
    ("shifts of the same state", round(at_once)),
    ("states of 64 bits", round(|state| shifted(state, [(wide, 13), (right, 17), (wide, 5)]))),
    ("states of 33 bits", round(|state| shifted(state, [(longer, 13), (right, 17), (longer, 5)]))),
    ("states of 31 bits", round(|state| (RIGHT.round)(state) % (1 << 31))),
    ("cut at the end of a round", round(cut_at_the_end)),
    ("signed states", round(|state| shifted(state, [(left, 13), (signed, 17), (left, 5)]))),
    ("turned, not shifted", round(|state| shifted(state, TURNS))),
    ("sums, not either-or", round(summed)),
];

const fn round(round: fn(u64) -> u64) -> Rules {
    Rules { round, ..RIGHT }
}

fn none(_: u64, _: u32) -> u64 {
    0
}

fn at_once(state: u64) -> u64 {
    state ^ left(state, 13) ^ right(state, 17) ^ left(state, 5)
}

fn wide(state: u64, places: u32) -> u64 {
    state << places
}

fn longer(state: u64, places: u32) -> u64 {
    (state << places) % (1 << 33)
}

/// What is past 32 bits comes back by the shift to the right.
fn cut_at_the_end(state: u64) -> u64 {
    shifted(state, [(wide, 13), (right, 17), (wide, 5)]) % (1 << 32)
}

fn signed(state: u64, places: u32) -> u64 {
    (state as i32 >> places) as u32 as u64
}

const TURNS: [Shift; 3] = [(turn, 13), (turn, 32 - 17), (turn, 5)];

fn turn(state: u64, places: u32) -> u64 {
    (state as u32).rotate_left(places) as u64
}

fn summed(state: u64) -> u64 {
    let state = (state + left(state, 13)) % (1 << 32);
    let state = (state + right(state, 17)) % (1 << 32);
    (state + left(state, 5)) % (1 << 32)
}

pub const DRAWS: &[Wrong] = &[
    ("the state before the round", draw(state_before)),
    ("two rounds a draw", draw(|stream| [right_draw(stream), right_draw(stream)][1])),
    ("the lower half", draw(|stream| right_draw(stream) % (1 << 16))),
    ("the upper half", draw(|stream| right(right_draw(stream), 16))),
    ("without the top bit", draw(|stream| right_draw(stream) % (1 << 31))),
    ("without the lowest bit", draw(|stream| right(right_draw(stream), 1))),
    (
        "the size of a signed state",
        draw(|stream| (right_draw(stream) as i32).unsigned_abs() as u64),
    ),
    ("one less", draw(|stream| right_draw(stream) - 1)),
];

const fn draw(draw: fn(&mut Stream) -> u64) -> Rules {
    Rules { draw, ..RIGHT }
}

fn right_draw(stream: &mut Stream) -> u64 {
    (RIGHT.draw)(stream)
}

/// The seed itself is the first draw.
fn state_before(stream: &mut Stream) -> u64 {
    let state = stream.state;
    right_draw(stream);
    state
}

pub const SHAPES: &[Wrong] = &[
    ("axes mod 3", axes(|draw| 1 + draw % 3)),
    ("axes mod 5", axes(|draw| 1 + draw % 5)),
    ("axes without 1 plus", axes(|draw| draw % 4)),
    ("axes from 2", axes(|draw| 2 + draw % 4)),
    ("axes by the top bits", axes(|draw| 1 + right(draw, 30))),
    ("lengths mod 8", length(|draw| 1 + draw % 8)),
    ("lengths mod 10", length(|draw| 1 + draw % 10)),
    ("lengths without 1 plus", length(|draw| draw % 9)),
    ("lengths from 2", length(|draw| 2 + draw % 9)),
    ("p up to 2", p(|lengths, draw| up_to(halvings(lengths).min(2), draw))),
    ("p up to 4", p(|lengths, draw| up_to(halvings(lengths).min(4), draw))),
    ("p up to F", p(|lengths, draw| up_to(halvings(lengths), draw))),
    ("p up to 3 whatever F is", p(|_, draw| up_to(3, draw))),
    ("p up to the larger", p(|lengths, draw| up_to(halvings(lengths).max(3), draw))),
    ("p below the smaller", p(|lengths, draw| up_to(halvings(lengths).clamp(1, 3) - 1, draw))),
    ("p up to one more", p(|lengths, draw| up_to(halvings(lengths).min(3) + 1, draw))),
    ("1 plus p", p(|lengths, draw| 1 + up_to(halvings(lengths).min(3), draw))),
    ("p mod 4, but at most F", p(|lengths, draw| up_to(3, draw).min(halvings(lengths)))),
    ("logs rounded up", p(|lengths, draw| up_to(logs(lengths, f64::ceil).min(3), draw))),
    ("logs rounded", p(|lengths, draw| up_to(logs(lengths, f64::round).min(3), draw))),
    ("the log of the product", p(|lengths, draw| up_to(log_of_product(lengths).min(3), draw))),
    ("the largest log", p(|lengths, draw| up_to(largest_log(lengths).min(3), draw))),
    ("logs without the first", p(|lengths, draw| up_to(halvings(&lengths[1..]).min(3), draw))),
    ("logs without the last", p(|lengths, draw| up_to(without_last(lengths).min(3), draw))),
    ("logs of lengths less 1", p(|lengths, draw| up_to(logs_lessened(lengths).min(3), draw))),
    ("F is the number of axes", p(|lengths, draw| up_to(lengths.len().min(3) as u64, draw))),
];

const fn axes(axes: fn(u64) -> u64) -> Rules {
    Rules { axes, ..RIGHT }
}

const fn length(length: fn(u64) -> u64) -> Rules {
    Rules { length, ..RIGHT }
}

const fn p(p: fn(&[u16], u64) -> u64) -> Rules {
    Rules { p, ..RIGHT }
}

fn logs(lengths: &[u16], rounded: fn(f64) -> f64) -> u64 {
    lengths.iter().map(|&length| rounded(f64::from(length).log2()) as u64).sum()
}

fn log_of_product(lengths: &[u16]) -> u64 {
    count(lengths).ilog2().into()
}

fn largest_log(lengths: &[u16]) -> u64 {
    halvings(&[lengths.iter().copied().max().unwrap_or(1)])
}

fn without_last(lengths: &[u16]) -> u64 {
    halvings(&lengths[..lengths.len() - 1])
}

/// 2^k less than the length.
fn logs_lessened(lengths: &[u16]) -> u64 {
    lengths.iter().map(|length| halvings(&[length - 1])).sum()
}

pub const ORDERS: &[Wrong] = &[
    ("the first draw skipped", order(first_skipped)),
    ("a draw skipped before the lengths", order(|stream| stream.exercise(After::Axes, skip))),
    ("a draw skipped before p", order(|stream| stream.exercise(After::Lengths, skip))),
    ("a draw skipped before the points", order(|stream| stream.exercise(After::P, skip))),
    ("lengths from the seed again", order(|stream| stream.exercise(After::Axes, begin_again))),
    ("p from the seed again", order(|stream| stream.exercise(After::Lengths, begin_again))),
    ("points from the seed again", order(|stream| stream.exercise(After::P, begin_again))),
    ("points from after the axes", order(|stream| stream.exercise(After::P, from_the_axes))),
    ("p by the last length's draw", order(|stream| stream.exercise(After::Lengths, step_back))),
    ("the first point by p's draw", order(|stream| stream.exercise(After::P, step_back))),
    ("one draw for all lengths", order(equal_lengths)),
    ("four lengths always drawn", order(four_lengths)),
    ("p before the lengths", order(p_before_lengths)),
    ("p before the axes", order(p_before_axes)),
    ("p after the points", order(p_after_points)),
    ("p not drawn where it is 0 anyway", order(p_where_needed)),
    ("lengths from the last axis on", order(|stream| altered(stream, reverse_lengths))),
    ("points from the last on", order(|stream| altered(stream, |drawn| drawn.points.reverse()))),
    ("points column-major", order(|stream| altered(stream, column_major))),
    ("the last point left out", order(|stream| altered(stream, last_left_out))),
    ("a point too many", order(point_too_many)),
    ("as many points as the lengths' sum", order(points_by_sum)),
];

const fn order(exercise: fn(Stream) -> Drawn) -> Rules {
    Rules { exercise, ..RIGHT }
}

fn skip(stream: &mut Stream) {
    stream.next();
}

fn begin_again(stream: &mut Stream) {
    stream.state = stream.seed;
}

fn from_the_axes(stream: &mut Stream) {
    begin_again(stream);
    skip(stream);
}

/// The last draw is made again.
fn step_back(stream: &mut Stream) {
    stream.state = stream.before;
}

fn first_skipped(mut stream: Stream) -> Drawn {
    skip(&mut stream);
    (RIGHT.exercise)(stream)
}

fn equal_lengths(mut stream: Stream) -> Drawn {
    let axes = stream.axes();
    let lengths = stream.lengths(1).repeat(axes as usize);
    the_rest(stream, lengths)
}

fn four_lengths(mut stream: Stream) -> Drawn {
    let axes = stream.axes();
    let mut lengths = stream.lengths(4);
    lengths.truncate(axes as usize);
    the_rest(stream, lengths)
}

fn the_rest(mut stream: Stream, lengths: Vec<u16>) -> Drawn {
    let p = stream.p(&lengths);
    let points = stream.points(count(&lengths));
    Drawn { lengths, p, points }
}

fn p_before_lengths(mut stream: Stream) -> Drawn {
    let axes = stream.axes();
    let draw = stream.next();
    let lengths = stream.lengths(axes);
    with_p(stream, lengths, draw)
}

fn p_before_axes(mut stream: Stream) -> Drawn {
    let draw = stream.next();
    let axes = stream.axes();
    let lengths = stream.lengths(axes);
    with_p(stream, lengths, draw)
}

fn with_p(mut stream: Stream, lengths: Vec<u16>, draw: u64) -> Drawn {
    let p = (stream.rules.p)(&lengths, draw) as u8;
    let points = stream.points(count(&lengths));
    Drawn { lengths, p, points }
}

fn p_after_points(mut stream: Stream) -> Drawn {
    let axes = stream.axes();
    let lengths = stream.lengths(axes);
    let points = stream.points(count(&lengths));
    let p = stream.p(&lengths);
    Drawn { lengths, p, points }
}

fn p_where_needed(mut stream: Stream) -> Drawn {
    let axes = stream.axes();
    let lengths = stream.lengths(axes);
    let p = if halvings(&lengths) > 0 { stream.p(&lengths) } else { 0 };
    let points = stream.points(count(&lengths));
    Drawn { lengths, p, points }
}

fn altered(stream: Stream, alter: fn(&mut Drawn)) -> Drawn {
    let mut drawn = (RIGHT.exercise)(stream);
    alter(&mut drawn);
    drawn
}

fn reverse_lengths(drawn: &mut Drawn) {
    drawn.lengths.reverse();
}

fn last_left_out(drawn: &mut Drawn) {
    drawn.points.pop();
}

/// The first axis fastest.
fn column_major(drawn: &mut Drawn) {
    let place = |number: usize| {
        let (mut rest, mut stride, mut place) = (number, drawn.points.len(), 0);
        for &length in &drawn.lengths {
            stride /= usize::from(length);
            place += rest % usize::from(length) * stride;
            rest /= usize::from(length);
        }
        place
    };
    let mut points = vec![0; drawn.points.len()];
    for (number, &point) in drawn.points.iter().enumerate() {
        points[place(number)] = point;
    }
    drawn.points = points;
}

fn point_too_many(mut stream: Stream) -> Drawn {
    let axes = stream.axes();
    let lengths = stream.lengths(axes);
    let p = stream.p(&lengths);
    let points = stream.points(count(&lengths) + 1);
    Drawn { lengths, p, points }
}

fn points_by_sum(mut stream: Stream) -> Drawn {
    let axes = stream.axes();
    let lengths = stream.lengths(axes);
    let p = stream.p(&lengths);
    let points = stream.points(lengths.iter().map(|&length| u64::from(length)).sum());
    Drawn { lengths, p, points }
}

pub const POINTS: &[Wrong] = &[
    ("points less 1,001", point(|draw| (draw % 2_001) as i64 - 1_001)),
    ("points less 999", point(|draw| (draw % 2_001) as i64 - 999)),
    ("points mod 2,000", point(|draw| (draw % 2_000) as i64 - 1_000)),
    ("points mod 2,002", point(|draw| (draw % 2_002) as i64 - 1_000)),
    ("points less nothing", point(|draw| (draw % 2_001) as i64)),
    ("points of the other sign", point(|draw| 1_000 - (draw % 2_001) as i64)),
    ("1,000 taken off before the mod", point(|draw| (draw as i64 - 1_000) % 2_001)),
    ("points of a signed draw", point(|draw| (draw as i32 % 2_001) as i64 - 1_000)),
];

const fn point(point: fn(u64) -> i64) -> Rules {
    Rules { point, ..RIGHT }
}
