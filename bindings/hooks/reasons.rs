//! Which reasons are in force. Each edit of this copy makes the crate do what the hooks do
//! where the two are known to differ, and has a name; it acts where its name is in force in the
//! thread.

use std::cell::{Cell, RefCell};
use std::vec::Vec;

std::thread_local! {
    static IN_FORCE: RefCell<Vec<&'static str>> = const { RefCell::new(Vec::new()) };
    static IN_HOOK: Cell<bool> = const { Cell::new(false) };
    static IN_STEP: Cell<bool> = const { Cell::new(false) };
}

/// Puts these reasons in force, and no others.
pub fn put_in_force(reasons: &[&'static str]) {
    IN_FORCE.with_borrow_mut(|names| {
        names.clear();
        names.extend_from_slice(reasons);
    });
}

/// Whether a reason is in force.
pub(crate) fn holds(reason: &str) -> bool {
    IN_FORCE.with_borrow(|names| names.contains(&reason))
}

/// Whether a reason is in force, and a hook or a pause runs: for what lookups call, too.
pub(crate) fn holds_in_hook(reason: &str) -> bool {
    IN_HOOK.get() && holds(reason)
}

/// Whether a reason is in force, and a hook, a pause or another step before the lookups runs.
#[allow(dead_code)]
pub(crate) fn holds_in_step(reason: &str) -> bool {
    (IN_HOOK.get() || IN_STEP.get()) && holds(reason)
}

/// Runs a step that prepares or normalizes a text.
#[allow(dead_code)]
pub(crate) fn run_step<T>(step: impl FnOnce() -> T) -> T {
    IN_STEP.set(true);
    let result = step();
    IN_STEP.set(false);
    result
}

/// Runs a hook or a pause.
pub(crate) fn run_hook<T>(hook: impl FnOnce() -> T) -> T {
    IN_HOOK.set(true);
    let result = hook();
    IN_HOOK.set(false);
    result
}
