//! Points out of range, refused with 22, and counts of arcs that do not hold, refused with 23.

use crate::random::Random;
use crate::road::draft::{any_point, Draft};
use crate::MAX_SIZE;

/// The right number where high bits are dropped, or the largest numeral.
fn large(random: &mut Random, right: u64) -> u64 {
    let high = 1 << random.pick(&[8, 16, 32]);
    random.pick(&[high + right, high + right, 9_999_999_999])
}

fn outside(random: &mut Random, point: u64, points: u64) -> u64 {
    let (next, large) = (points + 1, large(random, point).max(points + 128));
    random.pick(&[0, 0, next, next, next, large, large, large])
}

/// At one end or at both, then of a point with itself too.
pub fn point_outside(random: &mut Random, draft: &mut Draft) {
    draft.need_arcs(random);
    let at = draft.any_arc_place(random);
    draft.lines[at] = outside_arc(random, draft);
}

pub fn outside_arc(random: &mut Random, draft: &Draft) -> Vec<u8> {
    let inside = any_point(random, draft.points);
    let outside = outside(random, inside, draft.points);
    let ends = random.pick(&[[outside, inside], [inside, outside], [outside, outside]]);
    draft.style.arc(random, [ends[0], ends[1], 7])
}

/// The lines after it fit the number of points that stood there.
pub fn points_outside(random: &mut Random, draft: &mut Draft) {
    let arcs = draft.arc_places().len() as u64;
    let points = outside_points(random, draft.points);
    draft.lines[draft.problem] = draft.style.problem(random, points, arcs);
}

pub fn outside_points(random: &mut Random, points: u64) -> u64 {
    let (next, large) = (MAX_SIZE as u64 + 1, large(random, points));
    random.pick(&[0, 0, next, next, large, large, large])
}

/// The `p` line says another number.
pub fn other_count(random: &mut Random, draft: &mut Draft) {
    let arcs = draft.arc_places().len() as u64;
    let (more, less, large) = (arcs + 1, arcs.max(2) - 1, large(random, arcs));
    let less = if less == arcs { 2 } else { less };
    let wrong = random.pick(&[more, more, less, less, large, large, large]);
    draft.lines[draft.problem] = draft.style.problem(random, draft.points, wrong);
}

/// The number stays, and an arc comes again or is left out.
pub fn other_arcs(random: &mut Random, draft: &mut Draft) {
    draft.need_arcs(random);
    let at = draft.any_arc_place(random);
    match random.one_in(2) {
        true => _ = draft.lines.remove(at),
        false => draft.insert(at, draft.lines[at].clone()),
    }
}

/// One arc more than the number, from a point to itself, which counts.
pub fn self_arc_uncounted(random: &mut Random, draft: &mut Draft) {
    let point = any_point(random, draft.points);
    let line = draft.style.arc(random, [point, point, 0]);
    let at = draft.any_place_from(random, draft.problem + 1);
    draft.insert(at, line);
}
