//! What a mesh did, step by step, as a trace that `geomrun verify` judges.

use crate::core::Step;
use crate::error::Errno;
use crate::header::Header;
use std::collections::{BTreeMap, HashMap};
use std::fmt::{self, Write};

/// What [`crate::Mesh::traced`] heard so far.
#[derive(Debug, Clone, Default)]
pub struct Trace {
    /// The lines of the header, and each command that was made.
    pub script: Vec<String>,
    /// The sizes of disks, and each step.
    pub steps: Vec<String>,
    /// The reply to each line of the script.
    pub replies: BTreeMap<usize, String>,
    // The line of each token that waits.
    lines: HashMap<u64, usize>,
}

/// Bytes as runs of equal ones, as `11*512 00*1`.
pub(crate) struct Runs<'a>(pub(crate) &'a [u8]);

impl fmt::Display for Runs<'_> {
    fn fmt(&self, out: &mut fmt::Formatter<'_>) -> fmt::Result {
        let mut rest = self.0;
        while let Some(first) = rest.first() {
            let len = rest.iter().take_while(|byte| *byte == first).count();
            let space = if rest.len() == self.0.len() { "" } else { " " };
            write!(out, "{space}{first:02x}*{len}")?;
            rest = &rest[len..];
        }
        Ok(())
    }
}

impl Trace {
    /// The trace, with the mesh as text at its end. It is one once no request waits.
    pub fn text(&self, mesh: &str) -> String {
        let mut text = String::new();
        for line in self.script.iter().chain(&self.steps) {
            text += line;
            text.push('\n');
        }
        text += "% report\n";
        for (line, reply) in &self.replies {
            // A String takes all that is written.
            let _ = writeln!(text, "{line} {reply}");
        }
        text + mesh
    }

    pub(crate) fn begun(header: &Header, sectors: &[u64]) -> Trace {
        let mut trace = Trace::default();
        trace.script.extend(header.text.lines().map(str::to_owned));
        let sizes = header.disks.iter().zip(sectors).filter(|(line, _)| line.ram.is_none());
        trace.steps.extend(sizes.map(|(_, count)| format!("% disk {count}")));
        trace
    }

    pub(crate) fn given(&mut self, token: u64, actor: (&str, u32), command: &str) {
        self.script.push(format!("{} {command}", actor.0));
        self.lines.insert(token, self.script.len());
        self.steps.push(format!("% 0 go {}", actor.1));
    }

    pub(crate) fn made(&mut self, step: Step) {
        self.steps.push(format!("% 0 {step}"));
    }

    pub(crate) fn delivered(&mut self, bio: u64, answer: &str) {
        self.steps.push(format!("% 0 deliver {bio} {answer}"));
    }

    pub(crate) fn replied(&mut self, token: u64, error: Option<Errno>, bytes: &[u8], listing: &str) {
        let said = match error {
            Some(errno) => errno.name().to_owned(),
            None if !bytes.is_empty() => format!("ok {}", Runs(bytes)),
            None if !listing.is_empty() => format!("ok\n{}", listing.trim_end()),
            None => "ok".to_owned(),
        };
        if let Some(line) = self.lines.remove(&token) {
            self.replies.insert(line, said);
        }
    }
}
