//! The reference's calls Start and Run where they are accepted, held against what document 01 says apart from them:
//! cards, registers worked out by hand, the whole run, and the row-wise array.

use reference::algebra::Algebra::{self, Distance, Reach, Steepest};
use reference::elimination::tables::Kind;
use reference::job_text::JobList;
use reference::random::Random;
use reference::systolic::memory::{Call, OwnJobs, RunCall, StartCall};
use reference::systolic::moments::{allowance, any_list, right_run, right_start, Pace};
use reference::systolic::rows::RowArray;
use reference::systolic::run;
use reference::texts::lists::{drawn_list, Sizes};

const NONE: u16 = 65535;

/// A job for each algebra.
fn jobs_of(order: u16, algebras: &[Algebra], sizes: &[u16], weights: &[u16]) -> JobList {
    JobList {
        order,
        algebras: algebras.to_vec(),
        sizes: sizes.to_vec(),
        weights: weights.to_vec(),
    }
}

/// Started, with results and scratch of 7.
fn started(list: &JobList) -> RunCall {
    let order = usize::from(list.order);
    let mut start = StartCall {
        order,
        jobs: OwnJobs::of(list),
        state: vec![9; 4 + 3 * order * order],
    };
    assert_eq!(start.model(), 0);
    RunCall {
        state: start.state,
        jobs: start.jobs,
        allowance: 0,
        scratch: vec![7; 2 * order],
        results: vec![7; list.weights.len()],
        made: 9,
    }
}

/// The ticks made. Scratch has to be zero after them.
fn advance(call: &mut RunCall, allowance: u16) -> u16 {
    call.allowance = allowance;
    call.scratch.fill(7);
    assert_eq!(call.model(), 0);
    assert!(call.scratch.iter().all(|&word| word == 0));
    call.made
}

#[test]
fn start_writes_header_and_zeros() {
    let call = started(&jobs_of(2, &[Steepest; 3], &[1, 2, 1], &[5; 6]));
    assert_eq!(call.state, [&[2, 0, 3, 0][..], &[0; 12]].concat());
}

/// B8 and the end of B11.
#[test]
fn one_point() {
    let mut call = started(&jobs_of(1, &[Reach], &[1], &[0]));
    assert_eq!(advance(&mut call, 0), 0);
    assert_eq!(call.state, [1, 0, 1, 0, 0, 0, 0]);
    assert_eq!(advance(&mut call, 3), 3);
    assert_eq!(
        (&call.state[..], call.results[0]),
        (&[1, 0, 1, 3, 1, 1, 1][..], 7)
    );
    assert_eq!(advance(&mut call, 65535), 1);
    assert_eq!((call.state[3], call.results[0]), (4, 1));
    assert_eq!(advance(&mut call, 5), 0);
    assert_eq!((call.state[3], call.results[0]), (4, 1));
}

/// B11: orders 32 and 33, 16 and 17 jobs, and a reach word of 2.
#[test]
fn borders_of_start() {
    for (order, jobs, word, number) in [
        (32, 16, 1, 0),
        (33, 16, 1, 6),
        (32, 17, 1, 7),
        (32, 0, 1, 7),
        (32, 16, 2, 5),
    ] {
        let list = jobs_of(order, &vec![Reach; jobs], &vec![1; jobs], &vec![word; jobs]);
        let mut call = right_start(&mut Random::new(11), &list);
        assert_eq!(call.model(), number, "{order} {jobs} {word}");
    }
}

/// B10: job 1's words leave on ticks 23, 24, 24 and 25, and on no other does a word of its part change.
#[test]
fn jobs_of_two_sizes() {
    let weights = [0, 4, 9, NONE, 0, 3, 1, NONE, 0, 9, 4, NONE, 9];
    let mut call = started(&jobs_of(3, &[Distance; 2], &[3, 2], &weights));
    assert_eq!(advance(&mut call, 23), 23);
    assert_eq!(call.results, [0, 4, 7, 4, 0, 3, 1, 5, 0, 7, 7, 7, 7]);
    for part in [[0, 7, 7, 7], [0, 4, NONE, 7], [0, 4, NONE, 0]] {
        assert_eq!(advance(&mut call, 1), 1);
        assert_eq!(call.results[9..], part);
    }
    assert_eq!(advance(&mut call, 9), 2);
}

/// Order 1 on tick 1: c becomes the sum of c and the product of a and b, and so do both of them. On tick 3 it leaves.
#[test]
fn planes_are_taken_as_numbers() {
    for (algebra, [c, a, b], wanted) in [
        (Reach, [7, 9, 4], 7),
        (Reach, [3, 9, 4], 4),
        (Distance, [NONE, 65000, 600], 65534),
        (Distance, [NONE, NONE, 0], NONE),
        (Distance, [9, 4, 4], 8),
        (Steepest, [NONE, 65534, 600], 65534),
        (Steepest, [9, 4, 5], 5),
    ] {
        let mut call = started(&jobs_of(1, &[algebra], &[1], &[1]));
        call.state[3..].copy_from_slice(&[1, c, a, b]);
        assert_eq!(advance(&mut call, 1), 1);
        assert_eq!(call.state[3..], [2, wanted, wanted, wanted], "{algebra:?}");
        let left = algebra.sum(wanted, algebra.product(wanted, wanted));
        assert_eq!(advance(&mut call, 2), 2);
        assert_eq!(call.results, [left], "{algebra:?}");
    }
}

/// On tick 3, in the last pass, c stays and goes into a alone.
#[test]
fn the_last_pass_keeps_b() {
    let mut call = started(&jobs_of(1, &[Reach], &[1], &[1]));
    call.state[3..].copy_from_slice(&[3, 7, 9, 4]);
    assert_eq!(advance(&mut call, 1), 1);
    assert_eq!(call.state[3..], [4, 7, 7, 4]);
    assert_eq!(call.results, [7]);
}

/// Three ticks of order 2 with one point, so that the table fed is all padding: the own word on the diagonal, else none.
#[test]
fn registers_of_padding() {
    let mut call = started(&jobs_of(2, &[Distance], &[1], &[9]));
    for planes in [
        [0, 0, 0, 0, 0, 0, 0, 0, 0, 0, 0, 0],
        [0, NONE, NONE, 0, NONE, 0, NONE, 0, NONE, NONE, 0, 0],
        [0, NONE, NONE, NONE, 0, NONE, 0, NONE, 0, 0, NONE, NONE],
    ] {
        assert_eq!(advance(&mut call, 1), 1);
        assert_eq!(call.state[4..], planes);
    }
    assert_eq!(call.results, [7]);
}

/// In each algebra, then in reach once more: on the first tick of a job its own word comes in at both edges, and the
/// product stands in the place of what the job before left.
#[test]
fn a_job_begins_in_its_own_algebra() {
    let algebras = [Reach, Distance, Steepest, Reach];
    let mut call = started(&jobs_of(1, &algebras, &[1; 4], &[0, 9, 9, 1]));
    for (job, own) in [(0, 1), (1, 0), (2, 0), (3, 1)] {
        assert_eq!(advance(&mut call, 1), 1);
        assert_eq!(call.state[3..], [4 * job + 1, own, own, own]);
        assert_eq!(advance(&mut call, 3), 3);
    }
    assert_eq!(call.results, [1, 0, 0, 1]);
}

/// c on the first four ticks of a job in distance that follows one in reach, both of one point in an array of order 2:
/// for two of them the last cell is on the job before still.
#[test]
fn registers_at_a_seam() {
    let mut call = started(&jobs_of(2, &[Reach, Distance], &[1, 1], &[0, 9]));
    assert_eq!(advance(&mut call, 8), 8);
    let reach = [1, 0, 0, 1];
    assert_eq!(call.state[4..8], reach);
    for c in [
        [0, 0, 0, 1],
        [0, NONE, NONE, 1],
        [0, NONE, NONE, NONE],
        [0, NONE, NONE, 0],
    ] {
        assert_eq!(advance(&mut call, 1), 1);
        assert_eq!(call.state[4..8], c);
    }
    assert_eq!(call.results, [1, 7]);
}

/// Runs of any length leave the words of one run, and after each of them the results are the row-wise array's.
#[test]
fn pieces_make_the_whole() {
    let mut random = Random::new(12);
    for order in 1..=32 {
        for jobs in 1..=4 {
            let sizes = random.pick(&Sizes::ALL);
            let list = drawn_list(&mut random, order, jobs, sizes, &Kind::ALL);
            let mut rows = RowArray::start(&list);
            let mut row_results = vec![7; list.weights.len()];
            let mut call = started(&list);
            while call.header().ticks_left() > 0 {
                let ticks = allowance(&mut random, Pace::Pieces, &call);
                let made = advance(&mut call, ticks);
                let rows_made = rows.run(ticks.into(), &list, &mut row_results);
                assert_eq!(usize::from(made), rows_made);
                assert_eq!(call.results, row_results, "{list:?}");
            }
            let mut whole = started(&list);
            let outcome = run(&list);
            assert_eq!(usize::from(advance(&mut whole, 65535)), outcome.ticks);
            assert_eq!(
                (&call.state, &call.results),
                (&whole.state, &outcome.results)
            );
        }
    }
}

/// A comparison that overlooks a word would pass anything there.
#[test]
fn every_difference_is_told() {
    let mut random = Random::new(19);
    let list = any_list(&mut random);
    let right = right_run(&mut random, &list);
    assert_eq!(right.compare(&right), Ok(()));
    let changes: [fn(&mut RunCall); 5] = [
        |call| call.made ^= 1,
        |call| call.state[0] ^= 1,
        |call| *call.state.last_mut().unwrap() ^= 1,
        |call| *call.results.last_mut().unwrap() ^= 1,
        |call| *call.scratch.last_mut().unwrap() ^= 1,
    ];
    for change in changes {
        let mut wrong = right.clone();
        change(&mut wrong);
        assert!(wrong.compare(&right).is_err());
    }
    let start = right_start(&mut random, &list);
    let mut wrong = start.clone();
    *wrong.state.last_mut().unwrap() ^= 1;
    assert_eq!(start.compare(&start), Ok(()));
    assert!(wrong.compare(&start).is_err());
}
