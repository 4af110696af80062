//! The original optimizer with the settings of document 02 that it does not have: what jobs that ask for one are compared with.

include!(concat!(env!("OUT_DIR"), "/src/root.rs"));

/// Run a job by the copy without inserted lines.
pub fn plain(job: &jobs::Job) -> jobs::Seen {
    if job.options.second_exchange_first {
        second_plain::pbc::PbcCircuit::run_job(job)
    } else {
        plain::pbc::PbcCircuit::run_job(job)
    }
}

/// Run a job, and hand back also what the inserted lines wrote down.
pub fn shown(job: &jobs::Job) -> (jobs::Seen, record::Record) {
    record::during(|| {
        if job.options.second_exchange_first {
            second_shown::pbc::PbcCircuit::run_job(job)
        } else {
            shown::pbc::PbcCircuit::run_job(job)
        }
    })
}
