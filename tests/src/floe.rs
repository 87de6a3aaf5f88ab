//! The archive: the records that bindings/rust declares, and its plain calls, a module for each part.
//! tests/c_programs/layout.rs holds the places of the records' fields fixed.

pub use floelinnet::raw::{
    Asked, Built, Checked, Comparison, Done, Guard, Limit, LogOpened, LogRead, RowAsked, Set, SetRead, Started, Told,
    Verdict, Written,
};

pub mod sets {
    pub use floelinnet::raw::{read_set, write_set};
}

pub mod verdict {
    pub use floelinnet::raw::judge;
}

pub mod compare {
    pub use floelinnet::raw::compare;
}

pub mod builder {
    pub use floelinnet::raw::build;
}

pub mod table {
    pub use floelinnet::raw::check_table;
}

pub mod guard {
    pub use floelinnet::raw::{guard_ask as ask, guard_new as new, guard_start as start, guard_tell as tell};
}

pub mod row {
    pub use floelinnet::raw::{row_ask as ask, row_start as start, row_tell as tell};
}

pub mod carry {
    pub use floelinnet::raw::{carry_read as read, carry_write as write};
}

pub mod log {
    pub use floelinnet::raw::{log_judge as judge, log_next as next, log_open as open, log_write as write};
}
