//! The command line.

#[derive(Default)]
pub struct Flags {
    /// One job in 01's listing form, answered by 01's listing.
    pub listing: bool,
    /// The gate's listings, with what the lent slices hold after each call.
    pub listings: bool,
    /// The largest tested sum as a call has it: 0 after a refusal.
    pub as_called: bool,
    /// What the lent slices hold after the call, in place of its results.
    pub memory: bool,
    /// Every tested sum before each answer, in lines that begin with #.
    pub sums: bool,
    /// A summary of all jobs on standard error.
    pub stats: bool,
    /// No answers.
    pub quiet: bool,
    /// Time of each job in the unchanged copy, on standard error; its assertions are on, so it is no benchmark.
    pub time: bool,
}

impl Flags {
    pub fn from_args() -> Self {
        let mut flags = Self::default();
        for arg in std::env::args().skip(1) {
            let flag = match arg.as_str() {
                "--listing" => &mut flags.listing,
                "--listings" => &mut flags.listings,
                "--as-called" => &mut flags.as_called,
                "--memory" => &mut flags.memory,
                "--sums" => &mut flags.sums,
                "--stats" => &mut flags.stats,
                "--quiet" => &mut flags.quiet,
                "--time" => &mut flags.time,
                _ => panic!("unknown flag {arg}"),
            };
            *flag = true;
        }
        flags
    }
}
