//! The original optimizer, unchanged; for jobs that ask for a setting of document 02, the copy that has it.

include!(concat!(env!("OUT_DIR"), "/src/root.rs"));

/// Run a job.
pub fn run(job: &jobs::Job) -> jobs::Seen {
    if job.options.of_a_request() {
        return requests::plain(job);
    }
    pbc::PbcCircuit::run_job(job)
}
