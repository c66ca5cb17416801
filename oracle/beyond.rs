//! Runs the crate on what the added refusals keep from it, and prints a table of what each of its four builds does.
#![allow(incomplete_features)]
#![feature(generic_const_exprs)]
mod bus;
#[allow(dead_code)]
mod crates;
mod job;

mod plain_checked {
    use crate::crates::plain_checked as calls;
    use bq_plain_checked as bq;
    include!("limits.rs");
}
mod plain_wrapping {
    use crate::crates::plain_wrapping as calls;
    use bq_plain_wrapping as bq;
    include!("limits.rs");
}
mod check_checked {
    use crate::crates::check_checked as calls;
    use bq_check_checked as bq;
    include!("limits.rs");
}
mod check_wrapping {
    use crate::crates::check_wrapping as calls;
    use bq_check_wrapping as bq;
    include!("limits.rs");
}

/// What a build does, with overflow checks and without.
fn both(checked: &str, wrapping: &str) -> String {
    if checked == wrapping { checked.to_string() } else { format!("with overflow checks: {checked}; without: {wrapping}") }
}

fn main() {
    std::panic::set_hook(Box::new(|_| {}));
    let plain = plain_checked::rows(false).into_iter().zip(plain_wrapping::rows(false));
    let check = check_checked::rows(true).into_iter().zip(check_wrapping::rows(true));
    println!("| line of DIFFERENCES, refusal: input | the crate without check bytes | with |\n|---|---|---|");
    for (((input, a), (_, b)), ((_, c), (_, d))) in plain.zip(check) {
        let (plain, check) = (both(&a, &b), both(&c, &d));
        println!("| {input} | {plain} | {} |", if plain == check { "the same" } else { &check });
    }
}
