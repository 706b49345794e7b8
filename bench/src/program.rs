//! Runs a program on a text.

use std::io::{Read, Write};
use std::path::{Path, PathBuf};
use std::process::{Command, ExitStatus, Stdio};
use std::sync::mpsc;
use std::thread;
use std::time::Duration;

pub struct Program {
    path: PathBuf,
    limit: Duration,
}

#[derive(Debug)]
pub struct Run {
    pub printed: Vec<u8>,
    pub status: ExitStatus,
}

impl Program {
    /// A program that may run so many seconds on each text.
    pub fn new(path: impl AsRef<Path>, limit_seconds: u64) -> Program {
        Program { path: path.as_ref().to_path_buf(), limit: Duration::from_secs(limit_seconds) }
    }

    /// Hands the text to standard input and collects standard output; standard error passes through.
    pub fn run(&self, text: &[u8]) -> Result<Run, String> {
        let mut child = Command::new(&self.path)
            .stdin(Stdio::piped())
            .stdout(Stdio::piped())
            .spawn()
            .map_err(|e| format!("{}: {e}", self.path.display()))?;
        let mut input = child.stdin.take().expect("piped");
        let mut output = child.stdout.take().expect("piped");

        let (done, printed) = mpsc::channel();
        let reader = thread::spawn(move || {
            let mut bytes = Vec::new();
            let result = output.read_to_end(&mut bytes).map(|_| bytes);
            // The other end is gone only if the time was up.
            let _ = done.send(result);
        });
        let text = text.to_vec();
        let writer = thread::spawn(move || {
            // A program may well stop reading before the text ends.
            let _ = input.write_all(&text);
        });

        let printed = match printed.recv_timeout(self.limit) {
            Ok(Ok(bytes)) => Ok(bytes),
            Ok(Err(e)) => Err(e.to_string()),
            Err(_) => Err(format!("not done after {} s", self.limit.as_secs())),
        };
        if printed.is_err() {
            let _ = child.kill();
        }
        let status = child.wait().map_err(|e| e.to_string())?;
        let _ = writer.join();
        let _ = reader.join();
        Ok(Run { printed: printed?, status })
    }
}
