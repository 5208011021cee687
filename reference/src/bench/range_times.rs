//! A range closed by our call, beside the one in Rust, and beside one elimination of ours.

use crate::algebra::Algebra;
use crate::bench::timing::{best_times, Contender};
use crate::calls::Calls;
use crate::elimination::bytes_of;
use crate::elimination::tables::Kind;
use crate::host_call::Proved;
use crate::random::Random;
use crate::ranges::damages::Call;
use crate::ranges::rust_range::close_range;
use crate::ranges::Bounds;
use crate::MAX_SIZE;
use std::hint::black_box;

/// The times in nanoseconds: of a range, ours and Rust's, and of one elimination of ours. As many as fill the place of the
/// largest, so that every size meets the same caches.
pub fn range_times(random: &mut Random, algebra: Algebra, size: usize) -> [f64; 3] {
    let count = (MAX_SIZE / size).pow(2);
    let calls: Vec<Call> = (0..count)
        .map(|_| Call::right(random, algebra, size, Kind::SmallWords))
        .collect();
    let tables: Vec<Vec<u8>> = calls.iter().map(|call| bytes_of(&call.tables[0])).collect();
    let (mut via, mut result) = (vec![0; size], vec![0; 2 * size * size]);
    let times = best_times([
        over_all(&calls, |asked, results| Proved.close_range(asked, results)),
        over_all(&calls, |asked, results| {
            close_range(asked, results, &mut via)
        }),
        Box::new(|| {
            for table in &tables {
                let table = black_box(table);
                let number = Proved.eliminate(algebra.number(), size, table, &mut result);
                assert_eq!(number, 0);
            }
        }),
    ]);
    times.map(|time| time / count as f64)
}

/// A round over all ranges, after one in which the results are looked at.
fn over_all<'a>(
    calls: &'a [Call],
    mut close: impl FnMut(&Bounds, [&mut [u16]; 2]) -> u32 + 'a,
) -> Contender<'a> {
    let mut results = calls[0].result_lens.map(|len| vec![0; len]);
    for call in calls {
        let [best, worst] = &mut results;
        let number = close(&call.bounds(), [best, worst]);
        assert!(
            number == 0 && results == call.bounds().closed(),
            "a contender's result is wrong"
        );
    }
    Box::new(move || {
        for call in calls {
            let [best, worst] = &mut results;
            assert_eq!(close(black_box(&call.bounds()), [best, worst]), 0);
        }
    })
}
