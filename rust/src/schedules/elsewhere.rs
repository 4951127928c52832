//! In place of the schedules where nothing plays them: on platforms without `stacks`.

pub(crate) fn is_played() -> bool {
    false
}

pub(crate) fn steps() -> Option<u64> {
    None
}

pub(crate) fn point() {}

pub(crate) fn stall_point() {}

pub(crate) fn is_blocked() {}

pub(crate) fn is_unlucky() -> bool {
    false
}
