//! FreeBSD's GEOM as a mesh over disks of your own, over the library `libtazbrev`, whose calls are proved. This crate
//! is tested only.
//!
//! A [`Mesh`] has a header, which names its disks and actors. An actor opens a provider, such as `md0`, as a
//! [`Handle`]. Requests go through geoms (nop, concat, stripe, labels, slices) to disks, which are types of yours that
//! are [`Disk`]. The mesh has no thread: it makes steps while it is called. [`Core`] has the library's calls as they
//! are, for loops of one's own.
//!
//! ```
//! use tazbrev::{Counts, Errno, Error, Mesh};
//!
//! # fn main() -> Result<(), Error> {
//! let mut mesh = Mesh::in_memory("ram md0 512 16\nactor a\nactor b\n")?;
//! let first = mesh.open("a", "h", "md0", Counts::EXCLUSIVE)?;
//! let second = mesh.open("b", "h", "md0", Counts::READ_WRITE);
//! assert_eq!(second, Err(Error::Geom(Errno::Access)));
//! mesh.close(&first)?;
//! # Ok(())
//! # }
//! ```
#![deny(unsafe_code)]
#![warn(missing_docs)]

pub mod core;
mod disk;
mod error;
mod header;
mod mesh;
mod rows;
mod trace;

pub use crate::core::{Asked, Core, Due, Op, Size, Step};
pub use crate::disk::{Disk, Fault, FileDisk, MemoryDisk};
pub use crate::error::{Errno, Error, Refusal};
pub use crate::mesh::{Answer, Handle, Mesh, Reply, Request};
pub use crate::rows::{parse, Consumer, Counts, Geom, Provider};
pub use crate::trace::Trace;

/// The blocks of code of the guide, which are run as tests.
#[cfg(doctest)]
#[doc = include_str!("../../../docs/LIVE-RUST.md")]
struct Guide;
