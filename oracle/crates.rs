//! The crate's four builds: without and with check bytes, each with overflow checks and without.
use crate::bus::Bus;
use crate::job::{parse, Job};

#[path = "balancing.rs"]
pub mod balancing;
#[path = "chip.rs"]
pub mod chip;
#[path = "printed.rs"]
pub mod printed;
#[path = "wiring.rs"]
pub mod wiring;

pub mod plain_checked {
    use bq_plain_checked as bq;
    include!("calls.rs");
}
pub mod plain_wrapping {
    use bq_plain_wrapping as bq;
    include!("calls.rs");
}
pub mod check_checked {
    use bq_check_checked as bq;
    include!("calls.rs");
}
pub mod check_wrapping {
    use bq_check_wrapping as bq;
    include!("calls.rs");
}

/// What callrun or staterun prints for a job, by the build with overflow checks or the one without.
pub fn run(job: &Job, bus: &mut Bus, overflow_checks: bool) -> String {
    match (job.check, overflow_checks) {
        (false, true) => plain_checked::run(job, bus),
        (false, false) => plain_wrapping::run(job, bus),
        (true, true) => check_checked::run(job, bus),
        (true, false) => check_wrapping::run(job, bus),
    }
}

/// What callrun prints for these bytes, or staterun where they are its own.
pub fn text(bytes: &[u8], overflow_checks: bool) -> String {
    let Some(job) = parse(bytes) else { return "refused 15\n".to_string() };
    run(&job, &mut Bus::of(&job), overflow_checks)
}
