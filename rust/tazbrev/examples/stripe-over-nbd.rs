//! stripe-over-nbd [PLUGIN]: serves a stripe of two new files over NBD, has a client write to it and read it back, and
//! says what stands in the files afterwards. PLUGIN is nbdkit-tazbrev-plugin.so, or `tazbrev` where it is installed.
//! The mesh is in the server, so this program needs no crate.

use std::error::Error;
use std::io::{self, Read, Write};
use std::os::unix::net::UnixStream;
use std::path::{Path, PathBuf};
use std::process::{Child, Command};
use std::time::Duration;
use std::{env, fs, process, thread};

const SCRIPT: &str = "# A stripe over two files.\ndisk left 512\ndisk right 512\nactor a\na stripe s 4096 left right\n";
const READ: u16 = 0;
const WRITE: u16 = 1;
const LEAVE: u16 = 2;
const FLUSH: u16 = 3;

/// A client of NBD at a socket, for one export. It asks one thing at a time.
struct Client {
    stream: UnixStream,
    size: u64,
}

impl Client {
    fn new(path: &Path, export: &str) -> io::Result<Client> {
        let mut client = Client {
            stream: UnixStream::connect(path)?,
            size: 0,
        };
        if !client.get(18)?.starts_with(b"NBDMAGICIHAVEOPT") {
            return Err(io::Error::new(
                io::ErrorKind::InvalidData,
                "the server does not speak NBD",
            ));
        }
        let mut option = [&[0, 0, 0, 3], &b"IHAVEOPT"[..], &[0, 0, 0, 1]].concat();
        option.extend((export.len() as u32).to_be_bytes());
        option.extend(export.as_bytes());
        client.stream.write_all(&option)?;
        client.size = number(&client.get(10)?[..8]);
        Ok(client)
    }

    fn get(&mut self, len: usize) -> io::Result<Vec<u8>> {
        let mut bytes = vec![0; len];
        self.stream.read_exact(&mut bytes)?;
        Ok(bytes)
    }

    fn send(&mut self, kind: u16, offset: u64, len: usize, data: &[u8]) -> io::Result<()> {
        let mut request = [
            &0x2560_9513_u32.to_be_bytes()[..],
            &[0, 0],
            &kind.to_be_bytes(),
            &[0; 8],
        ]
        .concat();
        request.extend(offset.to_be_bytes());
        request.extend((len as u32).to_be_bytes());
        request.extend(data);
        self.stream.write_all(&request)
    }

    /// The bytes of a read, else none.
    fn ask(&mut self, kind: u16, offset: u64, len: usize, data: &[u8]) -> io::Result<Vec<u8>> {
        self.send(kind, offset, len, data)?;
        match number(&self.get(16)?[4..8]) {
            0 => self.get(if kind == READ { len } else { 0 }),
            error => Err(io::Error::from_raw_os_error(error as i32)),
        }
    }

    fn leave(mut self) -> io::Result<()> {
        self.send(LEAVE, 0, 0, &[])?;
        self.stream.read_to_end(&mut Vec::new())?;
        Ok(())
    }
}

fn number(bytes: &[u8]) -> u64 {
    bytes.iter().fold(0, |number, &byte| number << 8 | u64::from(byte))
}

/// The mesh as text, once no client has it open any more.
fn mesh_of(path: &Path) -> Result<String, Box<dyn Error>> {
    let mut text = String::new();
    for _ in 0..100 {
        let mut client = Client::new(path, "@mesh")?;
        let size = client.size;
        text = String::from_utf8(client.ask(READ, 0, size as usize, &[])?)?;
        client.leave()?;
        if text.contains("stripe/s size 2097152 sector 512 r0w0e0") {
            break;
        }
        thread::sleep(Duration::from_millis(20));
    }
    Ok(text.trim_end_matches('\0').to_owned())
}

fn talk(path: &Path) -> Result<(), Box<dyn Error>> {
    let mut client = Client::new(path, "")?;
    println!("{}", client.size);
    client.ask(WRITE, 0, 4096, &[0x11; 4096])?;
    client.ask(WRITE, 4096, 4096, &[0x22; 4096])?;
    if client.ask(READ, 4096, 4096, &[])? != [0x22; 4096] {
        println!("the server gives other bytes than were written");
    }
    client.ask(FLUSH, 0, 0, &[])?;
    client.leave()?;
    print!("{}", mesh_of(path)?);
    Ok(())
}

fn serve(plugin: &str, room: &Path) -> io::Result<Child> {
    let mut server = Command::new("nbdkit");
    server.arg("-f").arg("-U").arg(room.join("socket")).arg(plugin);
    server
        .arg(format!("script={}", room.join("stripe.geom").display()))
        .arg("provider=stripe/s");
    for name in ["left", "right"] {
        server.arg(format!("disk={name}:{}", image(room, name).display()));
    }
    let mut server = server.spawn()?;
    while !room.join("socket").exists() && server.try_wait()?.is_none() {
        thread::sleep(Duration::from_millis(10));
    }
    Ok(server)
}

fn image(room: &Path, name: &str) -> PathBuf {
    room.join(format!("{name}.img"))
}

fn run(plugin: &str, room: &Path) -> Result<(), Box<dyn Error>> {
    for name in ["left", "right"] {
        fs::write(image(room, name), vec![0; 1 << 20])?;
    }
    fs::write(room.join("stripe.geom"), SCRIPT)?;
    let mut server = serve(plugin, room)?;
    let talked = talk(&room.join("socket"));
    server.kill()?;
    server.wait()?;
    talked?;
    for name in ["left", "right"] {
        let begin: String = fs::read(image(room, name))?[..4]
            .iter()
            .map(|it| format!("{it:02x}"))
            .collect();
        println!("{name} begins with {begin}");
    }
    Ok(())
}

fn main() -> Result<(), Box<dyn Error>> {
    let plugin = env::args().nth(1).unwrap_or_else(|| "tazbrev".to_owned());
    let room = env::temp_dir().join(format!("stripe-over-nbd-{}", process::id()));
    fs::create_dir(&room)?;
    let done = run(&plugin, &room);
    fs::remove_dir_all(&room)?;
    done
}
