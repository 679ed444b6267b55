//! A file system on a stripe of two disks of one's own, of which one fails at a chosen request, as nbdcopy sees it over
//! NBD. Where mke2fs, e2fsck or nbdcopy isn't there, nothing is tried, and that is said.

use std::error::Error;
use std::io::{self, Read, Write};
use std::os::unix::net::{UnixListener, UnixStream};
use std::path::{Path, PathBuf};
use std::process::{self, Command, Stdio};
use std::{env, fs};
use tazbrev::{Asked, Counts, Disk, Fault, Handle, MemoryDisk, Mesh};

const HEADER: &str = "disk left 512\ndisk right 512\nactor a\n";
const SECTORS: usize = 8192;
const SIZE: usize = 2 * 512 * SECTORS;
const STRIPE: usize = 4096;
const REQUEST: usize = 32768;
const READ: u64 = 0;
const WRITE: u64 = 1;
const LEAVE: u64 = 2;

type Tested = Result<(), Box<dyn Error>>;

/// A disk whose read or write of a number, from 1 on, fails; the write after so many sectors.
struct Failing {
    disk: MemoryDisk,
    read: usize,
    write: usize,
    done: u32,
}

impl Failing {
    fn new() -> Failing {
        Failing {
            disk: MemoryDisk::new(SECTORS, 512),
            read: 0,
            write: 0,
            done: 0,
        }
    }
}

/// Counts down to the request that fails.
fn is_failing(left: &mut usize) -> bool {
    *left = left.wrapping_sub(1);
    *left == 0
}

impl Disk for Failing {
    fn sectors(&self) -> u64 {
        self.disk.sectors()
    }

    fn read(&mut self, asked: &Asked, bytes: &mut [u8]) -> Result<(), Fault> {
        if is_failing(&mut self.read) {
            return Err(Fault::Failed { done: 0 });
        }
        self.disk.read(asked, bytes)
    }

    fn write(&mut self, asked: &Asked, bytes: &[u8]) -> Result<(), Fault> {
        if is_failing(&mut self.write) {
            let part = Asked {
                count: self.done,
                ..*asked
            };
            self.disk.write(&part, &bytes[..512 * self.done as usize])?;
            return Err(Fault::Failed { done: self.done });
        }
        self.disk.write(asked, bytes)
    }

    fn delete(&mut self, asked: &Asked) -> Result<(), Fault> {
        self.disk.delete(asked)
    }
}

/// A mesh with a stripe over two such disks, served over NBD to one client after another, one request at a time.
struct Server {
    mesh: Mesh<Failing>,
    handle: Handle,
    listener: UnixListener,
    folder: PathBuf,
    image: Vec<u8>,
}

fn number(bytes: &[u8]) -> u64 {
    bytes.iter().fold(0, |number, &byte| number << 8 | u64::from(byte))
}

fn get(client: &mut UnixStream, len: usize) -> io::Result<Vec<u8>> {
    let mut bytes = vec![0; len];
    client.read_exact(&mut bytes)?;
    Ok(bytes)
}

/// Takes an export's name, which is any. Each other option is unknown.
fn greet(client: &mut UnixStream) -> io::Result<()> {
    client.write_all(b"NBDMAGICIHAVEOPT\0\x01")?;
    get(client, 4)?;
    loop {
        let head = get(client, 16)?;
        get(client, number(&head[12..]) as usize)?;
        if head[8..12] == [0, 0, 0, 1] {
            return client.write_all(&[&(SIZE as u64).to_be_bytes()[..], &[0, 5], &[0; 124]].concat());
        }
        let magic = 0x0003_e889_0455_65a9_u64.to_be_bytes();
        client.write_all(&[&magic[..], &head[8..12], &[0x80, 0, 0, 1], &[0; 4]].concat())?;
    }
}

impl Server {
    /// Over new disks, with an image of a file system beside them. None where a tool isn't there.
    fn new(name: &str) -> Result<Option<Server>, Box<dyn Error>> {
        let folder = env::temp_dir().join(format!("tazbrev-{}-{name}", process::id()));
        let made =
            fs::create_dir(&folder).is_ok() && make_file_system(&folder) && can_run("nbdcopy") && can_run("e2fsck");
        if !made {
            println!("mke2fs, e2fsck and nbdcopy are not all here, so no file system is tried");
            fs::remove_dir_all(&folder)?;
            return Ok(None);
        }
        let mut mesh = Mesh::new(HEADER, vec![Failing::new(), Failing::new()])?;
        mesh.command(&format!("a stripe s {STRIPE} left right"))?;
        Ok(Some(Server {
            handle: mesh.open("a", "h", "stripe/s", Counts::READ_WRITE)?,
            mesh,
            listener: UnixListener::bind(folder.join("socket"))?,
            image: fs::read(folder.join("in.raw"))?,
            folder,
        }))
    }

    fn disk(&mut self, place: usize) -> &mut Failing {
        self.mesh.disk(place).expect("the disk is one's own")
    }

    /// Makes the requests of a client until it leaves.
    fn serve(&mut self, client: &mut UnixStream) -> io::Result<()> {
        greet(client)?;
        loop {
            let head = get(client, 28)?;
            let (kind, offset, len) = (number(&head[6..8]), number(&head[16..24]), number(&head[24..]));
            let got = match kind {
                READ => self.mesh.read(&self.handle, offset, len),
                WRITE => {
                    let bytes = get(client, len as usize)?;
                    self.mesh.write(&self.handle, offset, &bytes).map(|()| Vec::new())
                }
                LEAVE => return Ok(()),
                _ => self.mesh.flush(&self.handle).map(|()| Vec::new()),
            };
            let error = if got.is_ok() { [0; 4] } else { [0, 0, 0, 5] };
            let magic = 0x6744_6698_u32.to_be_bytes();
            client.write_all(&[&magic, &error, &head[8..16], &got.unwrap_or_default()].concat())?;
        }
    }

    /// Whether nbdcopy copies, one request at a time, all in order, and zeros as well.
    fn copies(&mut self, from: &str, to: &str) -> Result<bool, Box<dyn Error>> {
        let mut copier = Command::new("nbdcopy")
            .args(["--requests=1", "--connections=1", "--no-extents", "--sparse=0"])
            .arg(format!("--request-size={REQUEST}"))
            .args([from, to])
            .stderr(Stdio::piped())
            .spawn()?;
        let mut client = self.listener.accept()?.0;
        // After an error it leaves without a word.
        let _ended = self.serve(&mut client);
        drop(client);
        let mut said = String::new();
        copier
            .stderr
            .take()
            .ok_or("nbdcopy says nothing")?
            .read_to_string(&mut said)?;
        let well = copier.wait()?.success();
        assert!(well || said.contains("Input/output error"), "{said}");
        Ok(well)
    }

    fn path(&self, name: &str) -> String {
        self.folder.join(name).display().to_string()
    }

    fn copies_in(&mut self) -> Result<bool, Box<dyn Error>> {
        self.copies(
            &self.path("in.raw"),
            &format!("nbd+unix:///?socket={}", self.path("socket")),
        )
    }

    fn copies_out(&mut self) -> Result<bool, Box<dyn Error>> {
        self.copies(
            &format!("nbd+unix:///?socket={}", self.path("socket")),
            &self.path("out.raw"),
        )
    }

    /// What the stripe holds.
    fn striped(&mut self) -> Vec<u8> {
        let held = [self.disk(0).disk.data.clone(), self.disk(1).disk.data.clone()];
        let pieces = held[0].chunks(STRIPE).zip(held[1].chunks(STRIPE));
        pieces.flat_map(|(left, right)| [left, right].concat()).collect()
    }
}

impl Drop for Server {
    fn drop(&mut self) {
        fs::remove_dir_all(&self.folder).expect("the folder is removed");
    }
}

fn can_run(tool: &str) -> bool {
    Command::new(tool)
        .arg("--version")
        .stdout(Stdio::null())
        .stderr(Stdio::null())
        .status()
        .is_ok()
}

/// Whether a file system was made, of the sources of these tests.
fn make_file_system(folder: &Path) -> bool {
    let sources = concat!(env!("CARGO_MANIFEST_DIR"), "/tests");
    let made = Command::new("mke2fs")
        .args(["-q", "-F", "-b", "1024", "-d", sources])
        .arg(folder.join("in.raw"))
        .arg(format!("{}k", SIZE / 1024))
        .output();
    made.is_ok_and(|it| it.status.success())
}

#[test]
fn a_write_fails() -> Tested {
    let Some(mut server) = Server::new("write")? else {
        return Ok(());
    };
    // The last write of the fifth request.
    (server.disk(1).write, server.disk(1).done) = (20, 3);
    assert!(!server.copies_in()?);
    let mut wanted = server.image[..39 * STRIPE + 3 * 512].to_vec();
    wanted.resize(SIZE, 0);
    assert!(server.striped() == wanted);
    Ok(())
}

#[test]
fn a_read_fails() -> Tested {
    let Some(mut server) = Server::new("read")? else {
        return Ok(());
    };
    assert!(server.copies_in()? && server.striped() == server.image);
    server.disk(0).read = 30;
    assert!(!server.copies_out()?);
    let end = 29 / 4 * REQUEST;
    assert!(fs::read(server.path("out.raw"))?[..end] == server.image[..end]);
    Ok(())
}

#[test]
fn the_disk_recovers() -> Tested {
    let Some(mut server) = Server::new("again")? else {
        return Ok(());
    };
    server.disk(0).write = 1;
    assert!(!server.copies_in()?);
    assert!(server.copies_in()? && server.copies_out()?);
    assert!(fs::read(server.path("out.raw"))? == server.image);
    let checked = Command::new("e2fsck").arg("-fn").arg(server.path("out.raw")).output()?;
    assert!(checked.status.success());
    Ok(())
}
