//! The parts of a call as a damage leaves them.

use crate::algebra::Algebra;
use crate::elimination::damages::wrong_size;
use crate::elimination::eliminate;
use crate::random::Random;
use crate::ways::damages::Call;

/// The lengths stay as they are, or fit the new size, or fit what 64 bits make of its square.
pub fn damage_size(random: &mut Random, call: &mut Call) {
    call.size = wrong_size(random, call.size);
    let wrapped = call.size.wrapping_mul(call.size);
    if wrapped <= 100_000 && random.one_in(2) {
        call.links.resize(wrapped, 0);
        call.closed.resize(wrapped, 0);
        call.list_len = call.size.min(1000);
    }
}

/// The length of a line in the place of a table's too.
pub fn resize(random: &mut Random, size: usize, table: &mut Vec<u16>) {
    let len = random.not(table.len(), &[size]);
    table.resize(len, 1);
}

/// A number that is no point. With some the entry's place lies in the table still.
pub fn outside(random: &mut Random, size: usize, point: usize) -> usize {
    let in_table = random.between(size, size * size);
    let large = random.large(point);
    random.pick(&[size, size, size + 1, size + point, in_table, large, large])
}

/// Mostly one word changed.
pub fn damage_closed(random: &mut Random, call: &mut Call) {
    let right = call.closed.clone();
    match random.below(8) {
        0 | 1 => close_other_links(random, call),
        2 => {
            let (place, other) = (random.below(right.len()), random.below(right.len()));
            call.closed.swap(place, other);
        }
        _ => {}
    }
    if call.closed == right {
        damage_closed_word(random, call);
    }
}

/// The closed table of the links with one of them changed. Holding each of its words against those of its neighbours
/// does not always show that: not where a ring of links costs nothing.
fn close_other_links(random: &mut Random, call: &mut Call) {
    let algebra = Algebra::ALL[call.algebra as usize];
    let mut links = call.links.clone();
    links[random.below(call.size * call.size)] = random.pick(&[algebra.none(), algebra.own(), 1]);
    call.closed = eliminate(algebra, call.size, &links);
}

/// One up or down, to none or own, or in one bit: at the entry asked for, on the diagonal, in the row or column of the
/// points, at an end or anywhere.
fn damage_closed_word(random: &mut Random, call: &mut Call) {
    let algebra = Algebra::ALL[call.algebra as usize];
    let n = call.size;
    let asked = call.from * n + call.to;
    let diagonal = random.below(n) * (n + 1);
    let in_row = call.from * n + random.below(n);
    let in_column = random.below(n) * n + call.to;
    let end = random.pick(&[0, n * n - 1]);
    let anywhere = random.below(n * n);
    let places = [asked, diagonal, in_row, in_column, end, anywhere, anywhere];
    let place = random.pick(&places);
    let word = call.closed[place];
    let (up, down) = (word.wrapping_add(1), word.wrapping_sub(1));
    let one_bit = word ^ (1 << random.below(16));
    call.closed[place] = match random.pick(&[up, down, algebra.none(), algebra.own(), one_bit]) {
        same if same == word => up,
        other => other,
    };
}
