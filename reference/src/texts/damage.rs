//! Job texts that are damaged line by line and part by part, so that the tests deep in a text are met too. A damage is
//! meant for one refusal, but what a text has to be refused with is for the reader to say: a later damage may come
//! first, and some are none.

use crate::random::Random;
use crate::texts::form_damage::*;
use crate::texts::line_damage::*;
use crate::texts::lists::small_list;
use crate::texts::writing::{draft, written, Draft, Freedom, Line};

type Damage = fn(&mut Random, &mut Draft);

/// The refusals that damaged lines are made for. 13 is for long texts.
pub const NUMBERS: [u16; 8] = [5, 6, 7, 8, 14, 15, 16, 17];

fn damages(number: u16) -> &'static [Damage] {
    match number {
        5 => &[reach_word, reach_word, reach_word, to_reach],
        6 => &[order],
        7 => &[no_jobs, too_many_jobs, too_many_jobs, odd_job_too_many],
        8 => &[size, size, odd_job_too_many],
        14 => &[
            odd_word,
            odd_part,
            odd_dash,
            odd_name,
            odd_end,
            odd_algebra,
            old_form,
            drop_part,
            add_part,
            drop_line,
            double_line,
            swap_lines,
            add_line,
            join_lines,
            split_line,
        ],
        15 => &[long_numeral, long_numeral, dash, odd_job_too_many],
        16 => &[row_length, row_length, empty_row, other_size],
        _ => &[end_early, end_early, go_on_after_end],
    }
}

/// A small list with a damage for the refusal, and some with others beside it.
pub fn damaged_text(random: &mut Random, number: u16) -> Vec<u8> {
    let freedom = Freedom::any(random);
    let list = small_list(random);
    let mut lines = draft(random, freedom, &list);
    random.pick(damages(number))(random, &mut lines);
    while random.one_in(4) {
        let other = random.pick(&NUMBERS);
        random.pick(damages(other))(random, &mut lines);
    }
    written(random, freedom, &lines)
}

/// One line with several damages, which the order of the tests has to part.
pub fn mixed_text(random: &mut Random) -> Vec<u8> {
    let freedom = Freedom::any(random);
    let list = small_list(random);
    let mut lines = draft(random, freedom, &list);
    let any = random.below(lines.len());
    // The line of the list, that of its first job, the first row, or any.
    let at = random.pick(&[0, 1, 2, any, any]);
    let mix: fn(&mut Random, &mut Line) = random.pick(&[mix_part, mix_number]);
    for _ in 0..random.between(2, 4) {
        mix(random, &mut lines[at]);
    }
    written(random, freedom, &lines)
}
