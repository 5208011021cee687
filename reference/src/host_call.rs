//! The C calls of the proved library. Nothing checks the declarations here against the source there: they have to be kept
//! like those in host/ by hand.

use crate::calls::Calls;
use crate::ranges::Bounds;
use crate::systolic::{Jobs, LentRun};
use crate::ways::Question;

/// Declares the calls, or in a build that found none, calls that stop and say so.
macro_rules! c_calls {
    ($(fn $name:ident($($lent:ident: $type:ty),* $(,)?) -> $returned:ty;)*) => {
        #[cfg(host_archive)]
        extern "C" {
            $(fn $name($($lent: $type),*) -> $returned;)*
        }
        $(
            #[cfg(not(host_archive))]
            #[allow(clippy::too_many_arguments)]
            unsafe fn $name($(_: $type),*) -> $returned {
                panic!("built without libraudvisk.a: build it first, or name its folder in RAUDVISK_ARCHIVES")
            }
        )*
    };
}

c_calls! {
    fn paths_eliminate(
        algebra: u32, size: usize,
        weights: *const u8, weights_len: usize,
        result: *mut u8, result_len: usize,
    ) -> u32;

    fn traceback_way(
        algebra: u32, size: usize,
        links: *const u16, links_len: usize,
        closed: *const u16, closed_len: usize,
        from: usize, to: usize,
        list: *mut u16, list_len: usize,
        length: *mut usize,
    ) -> u32;

    fn interval_close_range(
        algebra: u32, size: usize,
        best: *const u16, best_len: usize,
        worst: *const u16, worst_len: usize,
        best_result: *mut u16, best_result_len: usize,
        worst_result: *mut u16, worst_result_len: usize,
    ) -> u32;

    fn array_start(
        algebras: *const u16, algebras_len: usize,
        order: usize,
        sizes: *const u16, sizes_len: usize,
        weights: *const u16, weights_len: usize,
        state: *mut u16, state_len: usize,
    ) -> u32;

    fn array_run(
        state: *mut u16, state_len: usize,
        algebras: *const u16, algebras_len: usize,
        sizes: *const u16, sizes_len: usize,
        weights: *const u16, weights_len: usize,
        allowance: u16,
        scratch: *mut u16, scratch_len: usize,
        results: *mut u16, results_len: usize,
        made: *mut u16,
    ) -> u32;

    fn road_read(
        file: *const u8, file_len: usize,
        table: *mut u16, table_len: usize,
        points: *mut usize,
    ) -> u32;

    fn sheet_print(text: *const u8, text_len: usize, page: *mut u8, page_len: usize) -> usize;
}

/// The calls of the archive.
///
/// SAFETY, of every call here: each pointer goes with its own slice's length, a slice's pointer is never null, and what is
/// lent mutably overlaps nothing else. The calls have no other demand: they refuse what they cannot take.
pub struct Proved;

impl Calls for Proved {
    fn eliminate(&self, algebra: u32, size: usize, weights: &[u8], result: &mut [u8]) -> u32 {
        let (lent, lent_len) = (weights.as_ptr(), weights.len());
        let (written, written_len) = (result.as_mut_ptr(), result.len());
        unsafe { paths_eliminate(algebra, size, lent, lent_len, written, written_len) }
    }

    fn way(&self, asked: &Question, list: &mut [u16], length: &mut usize) -> u32 {
        unsafe {
            traceback_way(
                asked.algebra,
                asked.size,
                asked.links.as_ptr(),
                asked.links.len(),
                asked.closed.as_ptr(),
                asked.closed.len(),
                asked.from,
                asked.to,
                list.as_mut_ptr(),
                list.len(),
                length,
            )
        }
    }

    fn close_range(&self, asked: &Bounds, results: [&mut [u16]; 2]) -> u32 {
        let ([best, worst], [best_result, worst_result]) = (asked.tables, results);
        unsafe {
            interval_close_range(
                asked.algebra,
                asked.size,
                best.as_ptr(),
                best.len(),
                worst.as_ptr(),
                worst.len(),
                best_result.as_mut_ptr(),
                best_result.len(),
                worst_result.as_mut_ptr(),
                worst_result.len(),
            )
        }
    }

    fn start(&self, order: usize, jobs: Jobs, state: &mut [u16]) -> u32 {
        unsafe {
            array_start(
                jobs.algebras.as_ptr(),
                jobs.algebras.len(),
                order,
                jobs.sizes.as_ptr(),
                jobs.sizes.len(),
                jobs.weights.as_ptr(),
                jobs.weights.len(),
                state.as_mut_ptr(),
                state.len(),
            )
        }
    }

    fn run(&self, lent: &mut LentRun) -> u32 {
        unsafe {
            array_run(
                lent.state.as_mut_ptr(),
                lent.state.len(),
                lent.jobs.algebras.as_ptr(),
                lent.jobs.algebras.len(),
                lent.jobs.sizes.as_ptr(),
                lent.jobs.sizes.len(),
                lent.jobs.weights.as_ptr(),
                lent.jobs.weights.len(),
                lent.allowance,
                lent.scratch.as_mut_ptr(),
                lent.scratch.len(),
                lent.results.as_mut_ptr(),
                lent.results.len(),
                lent.made,
            )
        }
    }

    fn read(&self, file: &[u8], table: &mut [u16], points: &mut usize) -> u32 {
        let (written, written_len) = (table.as_mut_ptr(), table.len());
        unsafe { road_read(file.as_ptr(), file.len(), written, written_len, points) }
    }
}

/// Room for every sheet.
pub const PAGE: usize = 475_157;

/// Prints the sheet of a text on the page and returns its length.
pub fn print_sheet(text: &[u8], page: &mut [u8]) -> usize {
    // SAFETY: as above.
    unsafe { sheet_print(text.as_ptr(), text.len(), page.as_mut_ptr(), page.len()) }
}
