//! The process that runs the jobs, started again when it has ended at one.

use std::io::{BufRead, BufReader, Write};
use std::process::{Child, ChildStdin, Command, Stdio};
use std::sync::mpsc::{Receiver, RecvTimeoutError, channel};
use std::time::Duration;

use crate::settings::Left;

/// Seconds of processor time after which the process is stopped, from one line to the next. No watch's: other work on the machine
/// would stop jobs that are not long.
pub const LIMIT: u64 = 5;
/// Linux's `_SC_CLK_TCK` on every machine that it runs on: what a second is in /proc.
const TICKS: u64 = 100;
/// How often its time is looked at. From outside: a timer within the process makes its clock go by ticks.
const LOOK: Duration = Duration::from_millis(100);

/// Why there is no line.
#[derive(Debug)]
pub enum Ended {
    /// The job took more processor time than it may.
    Long,
    /// By itself: an assertion, or a fault.
    Broken,
}

pub struct Worker {
    left: Left,
    child: Child,
    asked: ChildStdin,
    lines: Receiver<String>,
}

impl Worker {
    pub fn new(left: Left) -> Self {
        let program = std::env::current_exe().expect("this program has a path");
        let mut child = Command::new(program)
            .arg("--work")
            .args(left.flags())
            .stdin(Stdio::piped())
            .stdout(Stdio::piped())
            .spawn()
            .expect("this program can be started");
        let asked = child.stdin.take().expect("it is piped");
        let out = BufReader::new(child.stdout.take().expect("it is piped"));
        let (to, lines) = channel();
        std::thread::spawn(move || {
            for line in out.lines().map_while(Result::ok) {
                if to.send(line).is_err() {
                    break;
                }
            }
        });
        Self {
            left,
            child,
            asked,
            lines,
        }
    }

    /// Asks for a job.
    pub fn ask(&mut self, family: usize, seed: u64) {
        writeln!(self.asked, "{family} {seed}").expect("the process reads");
    }

    /// The next line; if there is none, why, and another process is ready.
    pub fn line(&mut self) -> Result<String, Ended> {
        let began = self.ticks();
        let ended = loop {
            match self.lines.recv_timeout(LOOK) {
                Ok(line) => return Ok(line),
                Err(RecvTimeoutError::Disconnected) => break Ended::Broken,
                Err(RecvTimeoutError::Timeout) => {
                    if self.ticks() > began + LIMIT * TICKS {
                        break Ended::Long;
                    }
                }
            }
        };
        // The old process is stopped when it is dropped.
        *self = Self::new(self.left);
        Err(ended)
    }

    /// The processor time that the process has used, its own and the system's for it; 0 if it is no more.
    fn ticks(&self) -> u64 {
        let stat = std::fs::read_to_string(format!("/proc/{}/stat", self.child.id()));
        let stat = stat.unwrap_or_default();
        // Behind the name, which stands between brackets, these are fields 12 and 13.
        let fields = stat.rsplit(')').next().unwrap_or_default();
        let times = fields.split_whitespace().skip(11).take(2);
        times.filter_map(|field| field.parse::<u64>().ok()).sum()
    }
}

impl Drop for Worker {
    fn drop(&mut self) {
        // Either fails if the process has ended by itself.
        let _ = self.child.kill();
        let _ = self.child.wait();
    }
}
