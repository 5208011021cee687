//! The kinds of files that a comparison lends.

use crate::random::Random;
use crate::road::draft::Draft;
use crate::road::form_damages::{line_damaged, sp_misspelt, stray_line};
use crate::road::mixed_damages::*;
use crate::road::order_damages::{arc_before_problem, no_problem, second_problem};
use crate::road::range_damages::*;
use crate::road::{COUNT, FORM, RANGE};

/// Its name, how many files of it a comparison lends, what they have to be answered with (0 where they are right, and
/// nothing where that is not known), and what is done to a right file.
pub type Kind = (
    &'static str,
    usize,
    Option<u32>,
    fn(&mut Random, &mut Draft),
);

pub const KINDS: [Kind; 19] = [
    ("right", 4_000, Some(0), right),
    ("line damaged", 4_000, Some(FORM), line_damaged),
    ("sp misspelt", 500, Some(FORM), sp_misspelt),
    ("stray line", 1_000, Some(FORM), stray_line),
    ("second p line", 600, Some(FORM), second_problem),
    ("arc before p line", 600, Some(FORM), arc_before_problem),
    ("no p line", 400, Some(FORM), no_problem),
    ("point outside", 1_500, Some(RANGE), point_outside),
    ("points outside", 600, Some(RANGE), points_outside),
    ("other count", 800, Some(COUNT), other_count),
    ("other arcs", 400, Some(COUNT), other_arcs),
    ("self arc uncounted", 300, Some(COUNT), self_arc_uncounted),
    ("count then form", 500, Some(FORM), count_then_form),
    ("count then range", 500, Some(RANGE), count_then_range),
    ("both on a line", 600, Some(FORM), both_on_a_line),
    ("range then form", 500, Some(RANGE), range_then_form),
    ("form then range", 500, Some(FORM), form_then_range),
    ("byte damaged", 3_000, None, byte_damaged),
    ("senseless", 3_000, None, senseless),
];

fn right(_: &mut Random, _: &mut Draft) {}
