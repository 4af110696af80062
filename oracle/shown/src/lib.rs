//! The original optimizer with inserted lines that show what it hides: ids, signs, axis words and tested sums; for jobs that ask for
//! a setting of document 02, the copy that has it.

include!(concat!(env!("OUT_DIR"), "/src/root.rs"));

/// Run a job, and hand back also what the inserted lines wrote down.
pub fn run(job: &jobs::Job) -> (jobs::Seen, record::Record) {
    if job.options.of_a_request() {
        return requests::shown(job);
    }
    record::during(|| pbc::PbcCircuit::run_job(job))
}
