//! A disk goes while requests are out. Its driver answers later, and the disk is let go once it is idle.

use tazbrev::{Answer, Asked, Counts, Disk, Error, Fault, Mesh, Reply};

/// A disk of zeros that answers a read later, once it is slow.
struct SlowDisk {
    is_slow: bool,
}

impl Disk for SlowDisk {
    fn sectors(&self) -> u64 {
        16
    }

    fn read(&mut self, _asked: &Asked, _bytes: &mut [u8]) -> Result<(), Fault> {
        if self.is_slow {
            Err(Fault::Later)
        } else {
            Ok(())
        }
    }

    fn write(&mut self, _asked: &Asked, _bytes: &[u8]) -> Result<(), Fault> {
        Err(Fault::Failed { done: 0 })
    }

    fn delete(&mut self, _asked: &Asked) -> Result<(), Fault> {
        Ok(())
    }
}

fn tell(name: &str, reply: Reply) {
    match reply {
        Ok(_) => println!("{name}: well"),
        Err(errno) => println!("{name}: TZB_{}", errno.name()),
    }
}

fn main() -> Result<(), Error> {
    let mut mesh = Mesh::new("disk md0 512\nactor a\n", vec![SlowDisk { is_slow: false }])?;
    let handle = mesh.open("a", "h", "md0", Counts::READ)?;
    if let Some(disk) = mesh.disk(0) {
        disk.is_slow = true;
    }
    for place in 0..3 {
        let _request = mesh.submit_read(&handle, 512 * place, 512)?;
    }
    mesh.run()?;
    mesh.pull("md0")?;
    println!("pulled, and {} wait", mesh.waiting());
    let mut names = ["first", "second", "third"].into_iter();
    while let Some(&asked) = mesh.asked().first() {
        mesh.answer(&asked, Answer::Bytes(&vec![0; 512 * asked.count as usize]))?;
        while let Some((_request, reply)) = mesh.next_reply()? {
            tell(names.next().unwrap_or("another"), reply);
        }
    }
    match mesh.read(&handle, 0, 512) {
        Err(Error::Geom(errno)) => tell("one more", Err(errno)),
        other => tell("one more", Ok(other?)),
    }
    mesh.close(&handle)?;
    match mesh.text()?.as_str() {
        "" => println!("nothing is left"),
        text => print!("{text}"),
    }
    Ok(())
}
