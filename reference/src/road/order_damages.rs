//! Right lines in a wrong order: a second `p` line, an arc before it, or none. All are refused with 21.

use crate::random::Random;
use crate::road::draft::{any_point, comment, Draft};

/// Whatever it says: the same, another, or points out of range.
pub fn second_problem(random: &mut Random, draft: &mut Draft) {
    let line = match random.below(3) {
        0 => draft.lines[draft.problem].clone(),
        1 => draft.style.problem(random, 3, 5),
        _ => {
            let points = random.pick(&[0, 129, 9_999_999_999]);
            draft.style.problem(random, points, 5)
        }
    };
    let at = draft.any_place_from(random, draft.problem + 1);
    draft.insert(at, line);
}

/// Whatever its points: in range of the `p` line that follows or not.
pub fn arc_before_problem(random: &mut Random, draft: &mut Draft) {
    let point = any_point(random, draft.points);
    let other = random.pick(&[point, 1, 0, draft.points + 1, 9_999_999_999]);
    let ends = random.pick(&[[point, other], [other, point]]);
    let line = draft.style.arc(random, [ends[0], ends[1], 7]);
    let at = random.between(0, draft.problem);
    draft.insert(at, line);
}

/// Nothing, comments alone, or the lines without their `p` line.
pub fn no_problem(random: &mut Random, draft: &mut Draft) {
    match random.below(4) {
        0 => draft.set_text(Vec::new()),
        1 => _ = draft.lines.remove(draft.problem),
        _ => {
            let count = random.between(1, 4);
            draft.lines = (0..count).map(|_| comment(random)).collect();
        }
    }
}
