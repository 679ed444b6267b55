//! A disk of one's own whose third write fails after one sector.

use tazbrev::{Asked, Counts, Disk, Error, Fault, MemoryDisk, Mesh};

struct FailingDisk {
    memory: MemoryDisk,
    writes: u32,
}

impl Disk for FailingDisk {
    fn sectors(&self) -> u64 {
        self.memory.sectors()
    }

    fn read(&mut self, asked: &Asked, bytes: &mut [u8]) -> Result<(), Fault> {
        self.memory.read(asked, bytes)
    }

    fn write(&mut self, asked: &Asked, bytes: &[u8]) -> Result<(), Fault> {
        self.writes += 1;
        if self.writes == 3 {
            self.memory.write(&Asked { count: 1, ..*asked }, &bytes[..512])?;
            return Err(Fault::Failed { done: 1 });
        }
        self.memory.write(asked, bytes)
    }

    fn delete(&mut self, asked: &Asked) -> Result<(), Fault> {
        self.memory.delete(asked)
    }
}

fn main() -> Result<(), Error> {
    let disk = FailingDisk {
        memory: MemoryDisk::new(64, 512),
        writes: 0,
    };
    let mut mesh = Mesh::new("disk md0 512\nactor a\n", vec![disk])?;
    let handle = mesh.open("a", "h", "md0", Counts { r: 0, w: 1, e: 0 })?;
    let mut requests = Vec::new();
    for (byte, offset) in (b'1'..=b'4').zip((0..).step_by(2048)) {
        requests.push(mesh.submit_write(&handle, offset, &[byte; 2048])?);
    }
    for (name, request) in ["first", "second", "third", "fourth"].into_iter().zip(requests) {
        match mesh.wait(request) {
            Ok(_) => println!("{name}: well"),
            Err(Error::Geom(errno)) => println!("{name}: TZB_{}", errno.name()),
            Err(other) => return Err(other),
        }
    }
    if let Some(disk) = mesh.disk(0) {
        let shown = |&byte: &u8| if byte == 0 { '.' } else { char::from(byte) };
        println!(
            "{}",
            disk.memory
                .data
                .iter()
                .step_by(512)
                .take(16)
                .map(shown)
                .collect::<String>()
        );
    }
    mesh.close(&handle)
}
