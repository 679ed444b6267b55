//! A disk in memory: writes a sector, reads it back, and is refused what lies past its end.

use tazbrev::{Counts, Error, Mesh};

fn main() -> Result<(), Error> {
    let mut mesh = Mesh::in_memory("ram md0 512 16\nactor a\n")?;
    let handle = mesh.open("a", "h", "md0", Counts::READ_WRITE)?;
    let mut bytes = [0; 512];
    bytes[..5].copy_from_slice(b"hello");
    mesh.write(&handle, 1024, &bytes)?;
    println!("written: well");
    let read = mesh.read(&handle, 1024, 512)?;
    println!("read: well\n{}", String::from_utf8_lossy(&read[..5]));
    if let Err(error) = mesh.write(&handle, 16 * 512, &bytes) {
        println!("write past the end: TZB_{error}");
    }
    mesh.close(&handle)
}
