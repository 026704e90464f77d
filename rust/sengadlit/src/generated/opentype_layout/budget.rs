// Generated from crates/opentype_layout/src/budget.rt by rust/erase; edit the source.

//! Budgets in bytes, which pay for tables.

/// How many of so many tables a budget pays for, at so many bytes each.
pub(crate) fn paid_for(count: u16, cost: usize, budget: &mut usize) -> u16 {
    let paid = usize::from(count).min(*budget / cost);
    *budget = budget.saturating_sub(paid.saturating_mul(cost));
    paid as u16
}
