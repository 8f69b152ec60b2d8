//! The proved head-end as a process: a line is asked, a line is answered, and it may be killed and started again on its journal.

use std::fs::File;
use std::io::{BufRead, BufReader, Write};
use std::process::{Child, ChildStdin, Command, Stdio};
use std::sync::mpsc::{self, Receiver};
use std::time::Duration;

/// How long an answer may take.
const PATIENCE: Duration = Duration::from_secs(5);

/// How it is started: the words of its command line, and where its complaints go.
#[derive(Clone)]
pub struct Start {
    pub words: Vec<String>,
    pub errors: String,
}

pub struct HeadEnd {
    start: Start,
    child: Child,
    input: ChildStdin,
    answers: Receiver<String>,
}

impl HeadEnd {
    pub fn start(start: Start) -> Result<HeadEnd, String> {
        let errors = File::options().create(true).append(true).open(&start.errors);
        let errors = errors.map_err(|why| format!("{}: {why}", start.errors))?;
        let mut command = Command::new(&start.words[0]);
        command.args(&start.words[1..]).stdin(Stdio::piped()).stdout(Stdio::piped()).stderr(errors);
        let mut child = command.spawn().map_err(|why| format!("the head-end is not started: {why}"))?;
        let input = child.stdin.take().ok_or("the head-end has no input")?;
        let output = child.stdout.take().ok_or("the head-end has no output")?;
        let (sender, answers) = mpsc::channel();
        std::thread::spawn(move || {
            for line in BufReader::new(output).lines().map_while(Result::ok) {
                if sender.send(line).is_err() {
                    return;
                }
            }
        });
        Ok(HeadEnd { start, child, input, answers })
    }

    /// Enters a line, and does not wait for its answer.
    pub fn enter(&mut self, line: &str) -> Result<(), String> {
        writeln!(self.input, "{line}").map_err(|why| format!("the head-end takes no line: {why}"))
    }

    pub fn ask(&mut self, line: &str) -> Result<String, String> {
        self.enter(line)?;
        self.answers.recv_timeout(PATIENCE).map_err(|_| format!("the head-end does not answer: {line}"))
    }

    /// Kills it as a loss of power would, and starts it again on what its journal has.
    pub fn kill_and_start(&mut self) -> Result<(), String> {
        self.end();
        *self = HeadEnd::start(self.start.clone())?;
        Ok(())
    }

    pub fn end(&mut self) {
        // it is gone in either case
        let _ = self.child.kill();
        let _ = self.child.wait();
    }
}

impl Drop for HeadEnd {
    fn drop(&mut self) {
        self.end();
    }
}
