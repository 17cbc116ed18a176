//! Plays a trace step by step from Rust: moves two pages to another node, and prints the reply to each step.
//!
//!     rustc -o session examples/session/session.rs
//!     ./session crates/numatrace_session/out/numatrace_session

use std::io::{BufRead, BufReader, Error, ErrorKind, Result, Write};
use std::process::{Child, ChildStdin, ChildStdout, Command, ExitStatus, Stdio};

/// Two nodes of four frames each: node 0 owns frames 0 to 3, node 1 frames 4 to 7.
const TOP: &str = r#"{"version":1,"machine":{"nodes":[4,4],"distance":[[10,20],[20,10]]}}"#;

/// A process at home on node 0 writes two pages, which takes two frames there. Then both move to node 1.
const STEPS: [&str; 6] = [
    r#"{"op":"spawn","pid":1,"uid":100,"home":0,"allowed":[0,1]}"#,
    r#"{"op":"map","pid":1,"addr":65536,"pages":2}"#,
    r#"{"op":"write","pid":1,"addr":65536,"data":"61"}"#,
    r#"{"op":"write","pid":1,"addr":69632,"data":"62"}"#,
    r#"{"op":"move_pages","caller":1,"pid":0,"pages":[65536,69632],"nodes":[1,1],"flags":2}"#,
    r#"{"op":"pagemap","pid":1}"#,
];

/// The program, and the pipes to it.
struct Session {
    program: Child,
    to: ChildStdin,
    from: BufReader<ChildStdout>,
}

impl Session {
    /// Starts the program, and sends it the top of a trace, which has no reply.
    fn open(path: &str, top: &str) -> Result<Session> {
        let mut program = Command::new(path).stdin(Stdio::piped()).stdout(Stdio::piped()).spawn()?;
        let mut to = program.stdin.take().unwrap();
        let from = BufReader::new(program.stdout.take().unwrap());
        writeln!(to, "{}", top)?;
        Ok(Session { program, to, from })
    }

    /// Makes a step, and returns the reply: lines up to an empty one, which is left out. Where it is no step, the line is
    /// `fault: ` and what is wrong.
    fn step(&mut self, step: &str) -> Result<Vec<String>> {
        writeln!(self.to, "{}", step)?;
        let mut lines = Vec::new();
        loop {
            let mut line = String::new();
            if self.from.read_line(&mut line)? == 0 {
                return Err(Error::new(ErrorKind::UnexpectedEof, "the program has ended"));
            }
            match line.trim_end() {
                "" => return Ok(lines),
                text => lines.push(text.to_string()),
            }
        }
    }

    /// Ends the program by ending its input.
    fn close(mut self) -> Result<ExitStatus> {
        drop(self.to);
        self.program.wait()
    }
}

fn main() -> Result<()> {
    let path = std::env::args().nth(1).expect("its argument is the path of the program numatrace_session");
    let mut session = Session::open(&path, TOP)?;
    for step in STEPS.iter() {
        for line in session.step(step)? {
            println!("{}", line);
        }
    }
    let status = session.close()?;
    std::process::exit(status.code().unwrap_or(1));
}
