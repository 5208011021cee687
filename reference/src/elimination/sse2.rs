//! A contender of the benchmark: the elimination with SSE2 instructions on eight words at once, in the manner of
//! source document 002, which has saturating words and takes one k at a time. That program also passes over a row
//! whose entry in column k is none; here no row is passed over, so that all contenders do the same work on any table.

use crate::algebra::Algebra;
use crate::MAX_SIZE;
use std::arch::x86_64::*;

/// Words in a register.
const LANES: usize = 8;

#[inline(always)]
fn everywhere(x: u16) -> __m128i {
    // SAFETY: every x86-64 processor has SSE2.
    unsafe { _mm_set1_epi16(x as i16) }
}

/// SSE2 compares no unsigned words, but subtracts them with saturation.
#[inline(always)]
fn smaller(a: __m128i, b: __m128i) -> __m128i {
    // SAFETY: every x86-64 processor has SSE2.
    unsafe { _mm_sub_epi16(a, _mm_subs_epu16(a, b)) }
}

#[inline(always)]
fn larger(a: __m128i, b: __m128i) -> __m128i {
    // SAFETY: every x86-64 processor has SSE2.
    unsafe { _mm_add_epi16(_mm_subs_epu16(a, b), b) }
}

/// Bytes in and bytes out, as in the C call; the arguments are not tested. This processor too has the low byte
/// first, so the table is worked on where it lies in the result.
pub fn eliminate(algebra: Algebra, size: usize, weights: &[u8], result: &mut [u8]) {
    result.copy_from_slice(weights);
    for i in 0..size {
        put(result, i * size + i, algebra.own());
    }
    // Each arm is compiled for its own sum, and product of one word, which is made ready once for a row, with a register.
    match algebra {
        Algebra::Reach => close(algebra, size, result, larger, everywhere, smaller),
        Algebra::Distance => close(algebra, size, result, smaller, one_more, held),
        Algebra::Steepest => close(algebra, size, result, smaller, everywhere, larger),
    }
}

/// One more than x and 1; none, which stays none, and 0.
#[inline(always)]
fn one_more(x: u16) -> (__m128i, __m128i) {
    let step = u16::from(x != Algebra::Distance.none());
    (everywhere(x + step), everywhere(step))
}

/// The addition of one more than x is held at 65535, so that without the one it is held at 65534. The held sum is not
/// below b, unless b is none.
#[inline(always)]
fn held((more, step): (__m128i, __m128i), b: __m128i) -> __m128i {
    // SAFETY: every x86-64 processor has SSE2.
    let held = unsafe { _mm_sub_epi16(_mm_adds_epu16(more, b), step) };
    larger(held, b)
}

#[inline(always)]
fn close<Ready: Copy>(
    algebra: Algebra,
    size: usize,
    table: &mut [u8],
    sum: impl Fn(__m128i, __m128i) -> __m128i,
    ready: impl Fn(u16) -> Ready,
    product: impl Fn(Ready, __m128i) -> __m128i,
) {
    let mut row_k = [0; 2 * MAX_SIZE];
    let via = &mut row_k[..2 * size];
    for k in 0..size {
        via.copy_from_slice(&table[2 * k * size..2 * (k + 1) * size]);
        for row in table.chunks_exact_mut(2 * size) {
            let x = get(row, k);
            let joined = ready(x);
            improve(algebra, row, x, via, |old, link| {
                sum(old, product(joined, link))
            });
        }
    }
}

/// Each entry of the row becomes the sum of itself and the product of `x` and its entry of `via`, eight at once by `better`.
#[inline(always)]
fn improve(
    algebra: Algebra,
    row: &mut [u8],
    x: u16,
    via: &[u8],
    better: impl Fn(__m128i, __m128i) -> __m128i,
) {
    let mut entries = row.chunks_exact_mut(2 * LANES);
    let mut links = via.chunks_exact(2 * LANES);
    for (entry, link) in entries.by_ref().zip(links.by_ref()) {
        // SAFETY: every x86-64 processor has SSE2, and both chunks have the 16 bytes of a register, which may lie at
        // any address.
        unsafe {
            let old = _mm_loadu_si128(entry.as_ptr().cast());
            let link = _mm_loadu_si128(link.as_ptr().cast());
            _mm_storeu_si128(entry.as_mut_ptr().cast(), better(old, link));
        }
    }
    let (rest, link) = (entries.into_remainder(), links.remainder());
    for j in 0..rest.len() / 2 {
        let through_k = algebra.product(x, get(link, j));
        put(rest, j, algebra.sum(get(rest, j), through_k));
    }
}

fn get(bytes: &[u8], at: usize) -> u16 {
    u16::from_le_bytes([bytes[2 * at], bytes[2 * at + 1]])
}

fn put(bytes: &mut [u8], at: usize, word: u16) {
    bytes[2 * at..2 * at + 2].copy_from_slice(&word.to_le_bytes());
}
