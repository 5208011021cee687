//! A contender of the benchmark: the elimination in place, in safe Rust that the compiler may turn into vector code.

use crate::algebra::Algebra;

/// Memory that is kept between calls, so that no call pays for allocating or clearing it.
pub struct RustLoop {
    table: Vec<u16>,
    via: Vec<u16>,
}

impl RustLoop {
    /// For tables of up to `size` points.
    pub fn new(size: usize) -> RustLoop {
        RustLoop {
            table: vec![0; size * size],
            via: vec![0; size],
        }
    }

    /// Bytes in and bytes out, as in the C call; the arguments are not tested.
    pub fn eliminate(&mut self, algebra: Algebra, size: usize, weights: &[u8], result: &mut [u8]) {
        let table = &mut self.table[..size * size];
        for (word, pair) in table.iter_mut().zip(weights.chunks_exact(2)) {
            *word = u16::from_le_bytes([pair[0], pair[1]]);
        }
        for i in 0..size {
            table[i * size + i] = algebra.own();
        }
        let via = &mut self.via[..size];
        // One match here, and none in the loops: each arm is compiled for its own sum and product.
        match algebra {
            Algebra::Reach => close(table, via, u16::max, u16::min),
            Algebra::Distance => close(table, via, u16::min, joined),
            Algebra::Steepest => close(table, via, u16::min, u16::max),
        }
        for (word, pair) in table.iter().zip(result.chunks_exact_mut(2)) {
            pair.copy_from_slice(&word.to_le_bytes());
        }
    }
}

/// Distance's product, in the form that was fastest where x is fixed: the addition of one more than x is held at 65535, so
/// that without the one it is held at 65534. Where x is none, it stays none; the held sum is not below y, unless y is none.
pub fn joined(x: u16, y: u16) -> u16 {
    let step = u16::from(x != Algebra::Distance.none());
    ((x + step).saturating_add(y) - step).max(y)
}

/// In place: step k leaves row k and column k as they are, since entry (k, k) is the own word. Row k is copied to
/// `via` so that the compiler sees that no store changes it.
pub(crate) fn close(
    table: &mut [u16],
    via: &mut [u16],
    sum: impl Fn(u16, u16) -> u16,
    product: impl Fn(u16, u16) -> u16,
) {
    let size = via.len();
    for k in 0..size {
        via.copy_from_slice(&table[k * size..(k + 1) * size]);
        for row in table.chunks_exact_mut(size) {
            let x = row[k];
            for (entry, &y) in row.iter_mut().zip(via.iter()) {
                *entry = sum(*entry, product(x, y));
            }
        }
    }
}
