//! Disks: what the mesh asks, and two kinds that are ready.

use crate::core::Asked;
use std::fs::{File, OpenOptions};
use std::io;
use std::os::unix::fs::FileExt;
use std::path::Path;

/// Why a disk has no answer to give now.
#[derive(Debug, Clone, Copy, PartialEq, Eq)]
pub enum Fault {
    /// It failed.
    Failed {
        /// So many sectors of a write or a delete were done; 0 for a read and a flush.
        done: u32,
    },
    /// The answer is given later, by [`crate::Mesh::answer`] with what was asked.
    Later,
}

impl From<io::Error> for Fault {
    fn from(_: io::Error) -> Fault {
        Fault::Failed { done: 0 }
    }
}

/// A disk. Places and counts are in sectors.
pub trait Disk {
    /// How many sectors there are.
    fn sectors(&self) -> u64;

    /// How many bytes a sector has: 512 or 4096, as the header says.
    fn sector(&self) -> u32 {
        512
    }

    /// Fills all of `bytes`, from the first sector on; what stands there before is no zeros.
    fn read(&mut self, asked: &Asked, bytes: &mut [u8]) -> Result<(), Fault>;

    /// Writes `bytes` from the first sector on.
    fn write(&mut self, asked: &Asked, bytes: &[u8]) -> Result<(), Fault>;

    /// Makes the sectors read as zeros.
    fn delete(&mut self, asked: &Asked) -> Result<(), Fault>;

    /// Keeps what was written.
    fn flush(&mut self, _asked: &Asked) -> Result<(), Fault> {
        Ok(())
    }
}

/// A pointer to a disk is a disk.
macro_rules! pointer_is_disk {
    ($pointer:ty) => {
        impl<D: Disk + ?Sized> Disk for $pointer {
            fn sectors(&self) -> u64 {
                (**self).sectors()
            }

            fn sector(&self) -> u32 {
                (**self).sector()
            }

            fn read(&mut self, asked: &Asked, bytes: &mut [u8]) -> Result<(), Fault> {
                (**self).read(asked, bytes)
            }

            fn write(&mut self, asked: &Asked, bytes: &[u8]) -> Result<(), Fault> {
                (**self).write(asked, bytes)
            }

            fn delete(&mut self, asked: &Asked) -> Result<(), Fault> {
                (**self).delete(asked)
            }

            fn flush(&mut self, asked: &Asked) -> Result<(), Fault> {
                (**self).flush(asked)
            }
        }
    };
}

pointer_is_disk!(Box<D>);
pointer_is_disk!(&mut D);

/// A disk in memory, of zeros.
#[derive(Debug, Clone)]
pub struct MemoryDisk {
    /// What the disk holds.
    pub data: Vec<u8>,
    sector: u32,
}

impl MemoryDisk {
    /// A disk of so many sectors of so many bytes.
    pub fn new(sectors: usize, sector: u32) -> MemoryDisk {
        MemoryDisk {
            data: vec![0; sectors * sector as usize],
            sector,
        }
    }

    fn range(&mut self, asked: &Asked) -> &mut [u8] {
        let at = asked.first as usize * self.sector as usize;
        &mut self.data[at..at + asked.count as usize * self.sector as usize]
    }
}

impl Disk for MemoryDisk {
    fn sectors(&self) -> u64 {
        self.data.len() as u64 / u64::from(self.sector)
    }

    fn sector(&self) -> u32 {
        self.sector
    }

    fn read(&mut self, asked: &Asked, bytes: &mut [u8]) -> Result<(), Fault> {
        bytes.copy_from_slice(self.range(asked));
        Ok(())
    }

    fn write(&mut self, asked: &Asked, bytes: &[u8]) -> Result<(), Fault> {
        self.range(asked).copy_from_slice(bytes);
        Ok(())
    }

    fn delete(&mut self, asked: &Asked) -> Result<(), Fault> {
        self.range(asked).fill(0);
        Ok(())
    }
}

/// An image file of whole sectors. No lock is taken.
#[derive(Debug)]
pub struct FileDisk {
    file: File,
    sectors: u64,
    sector: u32,
}

impl FileDisk {
    /// Opens an image for reading and writing.
    pub fn open(path: impl AsRef<Path>, sector: u32) -> io::Result<FileDisk> {
        let file = OpenOptions::new().read(true).write(true).open(path)?;
        let len = file.metadata()?.len();
        if sector == 0 || len == 0 || len % u64::from(sector) != 0 {
            let text = format!("{len} bytes are not whole sectors of {sector}");
            return Err(io::Error::new(io::ErrorKind::InvalidData, text));
        }
        Ok(FileDisk {
            file,
            sectors: len / u64::from(sector),
            sector,
        })
    }

    /// Writes all of these bytes, or says after how many whole sectors it failed.
    fn write_from(&self, first: u64, bytes: &[u8]) -> Result<(), Fault> {
        let sector = u64::from(self.sector);
        let mut at = 0;
        while at < bytes.len() {
            match self.file.write_at(&bytes[at..], first * sector + at as u64) {
                Ok(count) if count > 0 => at += count,
                Err(fault) if fault.kind() == io::ErrorKind::Interrupted => {}
                _ => {
                    return Err(Fault::Failed {
                        done: (at as u64 / sector) as u32,
                    })
                }
            }
        }
        Ok(())
    }
}

impl Disk for FileDisk {
    fn sectors(&self) -> u64 {
        self.sectors
    }

    fn sector(&self) -> u32 {
        self.sector
    }

    fn read(&mut self, asked: &Asked, bytes: &mut [u8]) -> Result<(), Fault> {
        Ok(self.file.read_exact_at(bytes, asked.first * u64::from(self.sector))?)
    }

    fn write(&mut self, asked: &Asked, bytes: &[u8]) -> Result<(), Fault> {
        self.write_from(asked.first, bytes)
    }

    fn delete(&mut self, asked: &Asked) -> Result<(), Fault> {
        let zeros = vec![0; self.sector as usize];
        for done in 0..asked.count {
            if self.write_from(asked.first + u64::from(done), &zeros).is_err() {
                return Err(Fault::Failed { done });
            }
        }
        Ok(())
    }

    fn flush(&mut self, _asked: &Asked) -> Result<(), Fault> {
        Ok(self.file.sync_data()?)
    }
}
