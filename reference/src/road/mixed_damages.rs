//! Files with two faults, of which one is told: the one of the earlier line, on one line 21, and 23 last.

use crate::random::Random;
use crate::road::draft::{any_point, Draft};
use crate::road::form_damages::damaged_line;
use crate::road::range_damages::{outside_arc, outside_points};

/// More arcs than the `p` line says, and then a line of no known form.
pub fn count_then_form(random: &mut Random, draft: &mut Draft) {
    too_many_arcs(random, draft);
    let line = random.pick(&draft.arc_places());
    let line = damaged_line(random, &draft.lines[line]);
    draft.insert(draft.lines.len(), line);
}

/// The same, and then a point out of range.
pub fn count_then_range(random: &mut Random, draft: &mut Draft) {
    too_many_arcs(random, draft);
    let line = outside_arc(random, draft);
    draft.insert(draft.lines.len(), line);
}

fn too_many_arcs(random: &mut Random, draft: &mut Draft) {
    draft.need_arcs(random);
    let fewer = random.below(draft.arc_places().len()) as u64;
    draft.lines[draft.problem] = draft.style.problem(random, draft.points, fewer);
}

/// 21: an arc with a point out of range, or a `p` line with such a number, that is of no known form besides.
pub fn both_on_a_line(random: &mut Random, draft: &mut Draft) {
    draft.need_arcs(random);
    let (at, line) = match random.one_in(3) {
        true => {
            let points = outside_points(random, draft.points);
            (draft.problem, draft.style.problem(random, points, 1))
        }
        false => (draft.any_arc_place(random), outside_arc(random, draft)),
    };
    draft.lines[at] = damaged_line(random, &line);
}

/// 22: a line out of range, and a later one of no known form.
pub fn range_then_form(random: &mut Random, draft: &mut Draft) {
    let (first, second) = two_arcs(random, draft);
    if random.one_in(3) {
        let points = outside_points(random, draft.points);
        draft.lines[draft.problem] = draft.style.problem(random, points, 1);
    } else {
        draft.lines[first] = outside_arc(random, draft);
    }
    draft.lines[second] = damaged_line(random, &draft.lines[second]);
}

/// 21: the other way round.
pub fn form_then_range(random: &mut Random, draft: &mut Draft) {
    let (first, second) = two_arcs(random, draft);
    draft.lines[first] = damaged_line(random, &draft.lines[first]);
    draft.lines[second] = outside_arc(random, draft);
}

/// The places of two of its arcs, the earlier one first.
fn two_arcs(random: &mut Random, draft: &mut Draft) -> (usize, usize) {
    draft.need_arcs(random);
    let first = draft.any_arc_place(random);
    let ends = [(); 2].map(|_| any_point(random, draft.points));
    let line = draft.style.arc(random, [ends[0], ends[1], 7]);
    let second = draft.any_place_from(random, first + 1);
    draft.insert(second, line);
    (first, second)
}

/// Some bytes of a right file changed, put in or left out, or its end cut off: it may still be right.
pub fn byte_damaged(random: &mut Random, draft: &mut Draft) {
    let mut text = draft.text();
    let damages = random.pick(&[0, 1, 2, 3]);
    if damages == 0 {
        text.truncate(random.between(0, text.len()));
    }
    for _ in 0..damages {
        let any = random.below(256) as u8;
        let byte = random.pick(&[b' ', b'\n', b'0', b'1', b'9', b'a', b'c', b'p', b's', any]);
        let at = random.below(text.len());
        match random.below(3) {
            0 => text[at] = byte,
            1 => text.insert(at, byte),
            _ => _ = text.remove(at),
        }
    }
    draft.set_text(text);
}

/// Bytes of no sense, of the few that lines are made of, mostly after a right `p` line.
pub fn senseless(random: &mut Random, draft: &mut Draft) {
    let mut text = match random.one_in(4) {
        true => Vec::new(),
        false => b"p sp 2 1\n".to_vec(),
    };
    for _ in 0..random.below(12) {
        text.push(random.pick(b"  \n\n001122aaacps"));
    }
    draft.set_text(text);
}
