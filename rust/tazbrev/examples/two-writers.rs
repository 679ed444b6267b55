//! Who writes excludes another who writes, as long as he has an exclusive right. Readers may stay.

use tazbrev::{Counts, Error, Mesh};

/// Says what came of a call, and gives what it gave, if the mesh didn't refuse it.
fn tell<T>(what: &str, outcome: Result<T, Error>) -> Result<Option<T>, Error> {
    match outcome {
        Ok(got) => {
            println!("{what}: well");
            Ok(Some(got))
        }
        Err(Error::Geom(errno)) => {
            println!("{what}: TZB_{}", errno.name());
            Ok(None)
        }
        Err(other) => Err(other),
    }
}

fn main() -> Result<(), Error> {
    let mut mesh = Mesh::in_memory("ram md0 512 16\nactor alice\nactor bob\n")?;
    let opened = mesh.open("alice", "h", "md0", Counts::EXCLUSIVE);
    let handle = tell("alice writes, and excludes others", opened)?;
    tell("bob writes", mesh.open("bob", "h", "md0", Counts::READ_WRITE))?;
    tell("bob reads", mesh.open("bob", "h", "md0", Counts::READ))?;
    print!("{}", mesh.text()?);
    if let Some(handle) = handle {
        tell("alice leaves", mesh.close(&handle))?;
    }
    tell("bob writes", mesh.open("bob", "k", "md0", Counts::READ_WRITE))?;
    Ok(())
}
