//! A mesh is listened to, and what it did is judged by the released program.

use std::io::Write;
use std::process::{Command, Stdio};
use tazbrev::{Asked, Counts, Disk, Errno, Error, Fault, MemoryDisk, Mesh};

const HEADER: &str = "# A comment.\ndisk left 512\nram spare 512 64\ndisk right 512\nactor a\nactor b\n";

/// Fails each seventh write.
struct Worn(MemoryDisk, u32);

impl Disk for Worn {
    fn sectors(&self) -> u64 {
        self.0.sectors()
    }

    fn read(&mut self, asked: &Asked, bytes: &mut [u8]) -> Result<(), Fault> {
        self.0.read(asked, bytes)
    }

    fn write(&mut self, asked: &Asked, bytes: &[u8]) -> Result<(), Fault> {
        self.1 += 1;
        match self.1 % 7 {
            0 => Err(Fault::Failed { done: 0 }),
            _ => self.0.write(asked, bytes),
        }
    }

    fn delete(&mut self, asked: &Asked) -> Result<(), Fault> {
        self.0.delete(asked)
    }
}

fn verdict(text: &str) -> String {
    let program = concat!(env!("CARGO_MANIFEST_DIR"), "/../../release/geomrun");
    let mut judge = Command::new(program)
        .arg("verify")
        .stdin(Stdio::piped())
        .stdout(Stdio::piped())
        .spawn()
        .expect("the released program");
    judge
        .stdin
        .take()
        .expect("its input")
        .write_all(text.as_bytes())
        .expect("it reads");
    let out = judge.wait_with_output().expect("it ends").stdout;
    String::from_utf8_lossy(&out).trim().to_owned()
}

/// A number that is drawn.
fn draw(seed: &mut u64, below: u64) -> u64 {
    *seed = seed.wrapping_mul(6_364_136_223_846_793_005).wrapping_add(1);
    (*seed >> 33) % below
}

/// A command that is drawn. Many are refused.
fn give(mesh: &mut Mesh<Worn>, seed: &mut u64, handles: usize) -> Result<(), Error> {
    let lines = [
        "a stripe s 4096 left right",
        "a mesh",
        "b pull spare",
        "b insert spare",
        "a destroy stripe s",
    ];
    let handle = format!("h{}", draw(seed, handles as u64 + 1));
    let (offset, count) = (512 * draw(seed, 140), 1 + draw(seed, 20));
    let line = match draw(seed, 6) {
        0 => lines[draw(seed, 5) as usize].to_owned(),
        1 => format!("a close {handle}"),
        2 => format!("a read {handle} {offset} {}", 512 * count),
        3 => format!("a delete {handle} {offset} {}", 512 * count),
        4 => format!("a flush {handle}"),
        _ => format!("a write {handle} {offset} {:02x}*{}", draw(seed, 256), 512 * count),
    };
    mesh.submit_command(&line).map(|_| ())
}

fn traced(mut seed: u64) -> Result<(String, usize), Error> {
    let disks = vec![Worn(MemoryDisk::new(64, 512), 0), Worn(MemoryDisk::new(64, 512), 0)];
    let mut mesh = Mesh::traced(HEADER, disks)?;
    mesh.command("a stripe s 4096 left right")?;
    for (place, provider) in ["stripe/s", "spare", "left"].iter().enumerate() {
        let counts = Counts { r: 1, w: 1, e: 0 };
        match mesh.open("a", &format!("h{place}"), provider, counts) {
            Ok(_) | Err(Error::Geom(Errno::Access)) => {}
            Err(error) => return Err(error),
        }
    }
    for _ in 0..120 {
        give(&mut mesh, &mut seed, 3)?;
    }
    while mesh.next_reply()?.is_some() {}
    let text = mesh.text()?;
    let trace = mesh.trace().expect("it is traced");
    Ok((trace.text(&text), trace.replies.len()))
}

#[test]
fn each_history_is_legal() {
    for seed in 0..12 {
        let (text, replies) = traced(seed).expect("the mesh goes on");
        assert_eq!(verdict(&text), "yes", "seed {seed}");
        assert_eq!(replies, 124);
    }
}

#[test]
fn a_step_less_is_found() {
    let (text, _) = traced(1).expect("the mesh goes on");
    let less = text.replacen("\n% 0 event\n", "\n", 1);
    assert_ne!(verdict(&less), "yes");
}
