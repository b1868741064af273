//! A stream in words, by the program.

use std::borrow::ToOwned;
use std::ffi::OsString;
use std::format;
use std::io::{self, ErrorKind, Write};
use std::path::PathBuf;
use std::process::{Child, Command, Output, Stdio};
use std::string::{String, ToString};
use std::thread;
use std::vec::Vec;

/// What a stream is asked to be told as; the default is what `csicodec explain` writes without options.
///
/// ```no_run
/// use csicodec::Explain;
///
/// let json = Explain { json: true, only: vec!["CUP".into()], ..Explain::default() };
/// for line in json.explain(b"\x1b[5;7H")?.lines() {
///     assert!(line.contains(r#""words":"cursor to line 5, column 7""#));
/// }
/// # Ok::<(), std::io::Error>(())
/// ```
#[derive(Clone, Debug, Default, PartialEq, Eq, Hash)]
pub struct Explain {
    /// Whether each line is an object of JSON, of one text, control or string, with `at`, `kind`, `text` or `hex`, and `actions`.
    pub json: bool,
    /// The names that are told, as `SGR` or `DECSET 2004`; without any all are.
    pub only: Vec<String>,
    /// Whether only what has no name is told.
    pub unknown: bool,
    /// Whether what is put into the clipboard is decoded from base64.
    pub decode: bool,
    /// Where the program is; else the variable `CSICODEC_PROGRAM` says it, else it is `csicodec` in `PATH`.
    pub program: Option<PathBuf>,
}

impl Explain {
    /// What is in a whole stream, in words, a line each. It runs the program, which this package hasn't. `Err` is [`ErrorKind::NotFound`] where it
    /// isn't there, [`ErrorKind::InvalidInput`] with what it said where it refused a name, or what the system answered. A stream whose first line is
    /// that of an asciicast (of version 2 or 3, and of at most 4,096 bytes with its newline) is read as the recording, or refused.
    pub fn explain(&self, bytes: impl AsRef<[u8]>) -> io::Result<String> {
        let program = self.program();
        let child = self.command(&program).spawn().map_err(|error| {
            let path = program.to_string_lossy();
            io::Error::new(
                error.kind(),
                format!("the program csicodec can't be run as {path}: {error}"),
            )
        })?;
        let Output {
            status,
            stdout,
            stderr,
        } = told(child, bytes.as_ref())?;
        // Without a message status 1 says that nothing is unknown.
        if !stderr.is_empty() || !matches!(status.code(), Some(0 | 1)) {
            let said = String::from_utf8_lossy(&stderr);
            let said = match said.trim() {
                "" => status.to_string(),
                said => said.to_owned(),
            };
            return Err(io::Error::new(ErrorKind::InvalidInput, said));
        }
        String::from_utf8(stdout).map_err(|error| io::Error::new(ErrorKind::InvalidData, error))
    }

    fn program(&self) -> OsString {
        match &self.program {
            Some(path) => path.into(),
            None => std::env::var_os("CSICODEC_PROGRAM").unwrap_or_else(|| "csicodec".into()),
        }
    }

    fn command(&self, program: &OsString) -> Command {
        let mut command = Command::new(program);
        command.args(["explain", "--color=never"]);
        let asked = [
            ("--json", self.json),
            ("--unknown", self.unknown),
            ("--decode", self.decode),
        ];
        command.args(asked.iter().filter(|it| it.1).map(|it| it.0));
        if !self.only.is_empty() {
            command.arg(format!("--only={}", self.only.join(",")));
        }
        command
            .stdin(Stdio::piped())
            .stdout(Stdio::piped())
            .stderr(Stdio::piped());
        command
    }
}

/// What a program answers to some bytes. It reads and writes at the same time, so that neither waits for the other.
fn told(mut child: Child, bytes: &[u8]) -> io::Result<Output> {
    let input = child.stdin.take();
    thread::scope(|scope| {
        scope.spawn(move || {
            // A program that refuses its words reads nothing.
            input.map(|mut input| input.write_all(bytes))
        });
        child.wait_with_output()
    })
}

/// A whole stream in words, as [`Explain::explain`] tells it by default.
///
/// ```no_run
/// assert!(csicodec::explain(b"\x1b[5;7H")?.contains("CUP  cursor to line 5, column 7"));
/// # Ok::<(), std::io::Error>(())
/// ```
pub fn explain(bytes: impl AsRef<[u8]>) -> io::Result<String> {
    Explain::default().explain(bytes)
}
