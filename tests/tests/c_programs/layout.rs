//! The records lie in memory as include/floelinnet.h declares them: in C, in Rust, and by the numbers that stand here.

use std::mem::{align_of, offset_of, size_of, size_of_val};

use floelinnet_tests::floe::*;
use floelinnet_tests::tools;

use crate::programs::{compile, file, output};

/// Holds Rust to the numbers, and gives them in the words of layout.c. `job 8 at 16`: 8 bytes from byte 16 on.
macro_rules! lies {
    ($record:ident, $name:ident, $size:expr, $align:expr, $($field:ident $width:literal at $place:expr),*) => {{
        assert_eq!(size_of::<$record>(), $size, "size of {}", stringify!($record));
        assert_eq!(align_of::<$record>(), $align, "alignment of {}", stringify!($record));
        let mut lines = vec![format!("{} {} {}", stringify!($name), $size, $align)];
        $(
            let lies = (size_of_val(&$record::default().$field), offset_of!($record, $field));
            assert_eq!(lies, ($width, $place), "{}.{}", stringify!($record), stringify!($field));
            lines.push(format!("{}.{} {} {}", stringify!($name), stringify!($field), $width, $place));
        )*
        lines
    }};
}

#[test]
fn rust_and_c_agree_with_the_numbers() {
    let lines = [
        lies!(Limit, floe_limit, 3, 1, kind 1 at 0, x 1 at 1, k 1 at 2),
        lies!(Set, floe_set, 32, 8, count 8 at 0, limits 24 at 8),
        lies!(Guard, floe_guard, 32, 8, state 2 at 0, lost 1 at 2, outcomes 15 at 3, count 8 at 24),
        lies!(SetRead, floe_set_read, 48, 8, refused 8 at 0, at 8 at 8, set 32 at 16),
        lies!(Written, floe_written, 24, 8, refused 8 at 0, at 8 at 8, length 8 at 16),
        lies!(Verdict, floe_verdict, 48, 8,
            refused 8 at 0, at 8 at 8, kept 8 at 16, job 8 at 24, limit 8 at 32, first 8 at 40),
        lies!(Comparison, floe_comparison, 56, 8,
            refused 8 at 0, at 8 at 8, which 8 at 16, covers 8 at 24, length 8 at 32, pattern 16 at 40),
        lies!(Built, floe_built, 24, 8, refused 8 at 0, at 8 at 8, length 8 at 16),
        lies!(Checked, floe_checked, 24, 8, refused 8 at 0, at 8 at 8, states 8 at 16),
        lies!(Started, floe_started, 48, 8, refused 8 at 0, at 8 at 8, guard 32 at 16),
        lies!(Asked, floe_asked, 56, 8, refused 8 at 0, at 8 at 8, answer 8 at 16, guard 32 at 24),
        lies!(Told, floe_told, 48, 8, refused 8 at 0, at 8 at 8, guard 32 at 16),
        lies!(Done, floe_done, 16, 8, refused 8 at 0, at 8 at 8),
        lies!(RowAsked, floe_row_asked, 24, 8, refused 8 at 0, at 8 at 8, answer 8 at 16),
        lies!(LogOpened, floe_log_opened, 24, 8, refused 8 at 0, at 8 at 8, place 8 at 16),
        lies!(LogRead, floe_log_read, 32, 8, refused 8 at 0, at 8 at 8, answer 8 at 16, place 8 at 24),
    ];
    for compiler in [&["gcc", "-std=c11"], &["clang", "-std=c11"]] {
        let program = compile(compiler, &file("tests/c/layout.c"));
        let in_c = output(&mut tools::program(program));
        assert_eq!(in_c.lines().collect::<Vec<_>>(), lines.concat(), "{compiler:?}");
    }
}
