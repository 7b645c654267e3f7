//! The C signatures that the real engine and the plain C version share, each written once: the macro declares the
//! function of the given name and calls it.

/// A run on words of its own: `queue_run`.
#[macro_export]
macro_rules! own_run {
    ($name:ident, $sheet:expr, $out:expr) => {{
        extern "C" {
            fn $name(sheet: *const u8, sheet_len: usize, out: *mut u8, out_len: usize) -> u32;
        }
        let (sheet, out): (&[u8], &mut [u8]) = ($sheet, $out);
        // SAFETY: pointers and lengths are those of live slices that do not overlap.
        unsafe { $name(sheet.as_ptr(), sheet.len(), out.as_mut_ptr(), out.len()) }
    }};
}

/// A run on lent words: `fresh_run` and `kept_run`.
#[macro_export]
macro_rules! lent_run {
    ($name:ident, $store:expr, $sheet:expr, $out:expr, $figures:expr) => {{
        extern "C" {
            fn $name(
                store: *mut u32,
                store_len: usize,
                sheet: *const u8,
                sheet_len: usize,
                out: *mut u8,
                out_len: usize,
                figures: *mut [u32; 2],
            ) -> u32;
        }
        let (store, sheet, out): (&mut [u32], &[u8], &mut [u8]) = ($store, $sheet, $out);
        let figures: &mut [u32; 2] = $figures;
        // SAFETY: as in own_run.
        unsafe {
            $name(store.as_mut_ptr(), store.len(), sheet.as_ptr(), sheet.len(), out.as_mut_ptr(), out.len(), figures)
        }
    }};
}

/// A feed call: `feed_table`.
#[macro_export]
macro_rules! feed_call {
    ($name:ident, $asked:expr, $lists:expr, $figures:expr) => {{
        extern "C" {
            fn $name(
                places: u32,
                start: u32,
                minute: u32,
                from: *const u32,
                from_len: usize,
                to: *const u32,
                to_len: usize,
                loss: *const u32,
                loss_len: usize,
                opens: *const u32,
                opens_len: usize,
                closes: *const u32,
                closes_len: usize,
                best: *mut u32,
                best_len: usize,
                last: *mut u32,
                last_len: usize,
                joints: *mut u32,
                joints_len: usize,
                store: *mut u32,
                store_len: usize,
                figures: *mut [u32; 3],
            ) -> u32;
        }
        let Asked { places, start, minute, spans: Spans { from, to, loss, opens, closes } } = $asked;
        let (FeedLists { best, last, joints, store }, figures): (_, &mut [u32; 3]) = ($lists, $figures);
        // SAFETY: as in own_run.
        unsafe {
            $name(
                places,
                start,
                minute,
                from.as_ptr(),
                from.len(),
                to.as_ptr(),
                to.len(),
                loss.as_ptr(),
                loss.len(),
                opens.as_ptr(),
                opens.len(),
                closes.as_ptr(),
                closes.len(),
                best.as_mut_ptr(),
                best.len(),
                last.as_mut_ptr(),
                last.len(),
                joints.as_mut_ptr(),
                joints.len(),
                store.as_mut_ptr(),
                store.len(),
                figures,
            )
        }
    }};
}

/// A feed call with a budget: `feed_budget`.
#[macro_export]
macro_rules! budget_call {
    ($name:ident, $asked:expr, $budget:expr, $lists:expr, $figures:expr) => {{
        extern "C" {
            fn $name(
                places: u32,
                start: u32,
                minute: u32,
                from: *const u32,
                from_len: usize,
                to: *const u32,
                to_len: usize,
                loss: *const u32,
                loss_len: usize,
                opens: *const u32,
                opens_len: usize,
                closes: *const u32,
                closes_len: usize,
                budget: u32,
                best: *mut u32,
                best_len: usize,
                last: *mut u32,
                last_len: usize,
                joints: *mut u32,
                joints_len: usize,
                listed: *mut u32,
                listed_len: usize,
                store: *mut u32,
                store_len: usize,
                figures: *mut [u32; 4],
            ) -> u32;
        }
        let Asked { places, start, minute, spans: Spans { from, to, loss, opens, closes } } = $asked;
        let (budget, BudgetLists { best, last, joints, listed, store }): (u32, _) = ($budget, $lists);
        let figures: &mut [u32; 4] = $figures;
        // SAFETY: as in own_run.
        unsafe {
            $name(
                places,
                start,
                minute,
                from.as_ptr(),
                from.len(),
                to.as_ptr(),
                to.len(),
                loss.as_ptr(),
                loss.len(),
                opens.as_ptr(),
                opens.len(),
                closes.as_ptr(),
                closes.len(),
                budget,
                best.as_mut_ptr(),
                best.len(),
                last.as_mut_ptr(),
                last.len(),
                joints.as_mut_ptr(),
                joints.len(),
                listed.as_mut_ptr(),
                listed.len(),
                store.as_mut_ptr(),
                store.len(),
                figures,
            )
        }
    }};
}
