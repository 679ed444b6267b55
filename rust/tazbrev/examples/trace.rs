//! A mesh whose each step is heard: prints a trace, which `geomrun verify` judges.

use tazbrev::{Counts, Disk, Error, Mesh};

fn main() -> Result<(), Error> {
    let disks: Vec<Box<dyn Disk + Send>> = Vec::new();
    let mut mesh = Mesh::traced("ram md0 512 8\nactor a\n", disks)?;
    let handle = mesh.open("a", "h", "md0", Counts::READ_WRITE)?;
    mesh.write(&handle, 512, &[0x11; 512])?;
    mesh.read(&handle, 0, 1024)?;
    mesh.close(&handle)?;
    let text = mesh.text()?;
    if let Some(trace) = mesh.trace() {
        print!("{}", trace.text(&text));
    }
    Ok(())
}
