//! The library's calls in safe form, and the one module with `unsafe`.
//!
//! What `tazbrev.h` asks of a caller holds here: references are never null and have their lengths, arguments that are
//! written overlap no others, a handle begins as zeros, and a call has it for itself, since it borrows it mutably.
#![allow(unsafe_code)]

use crate::error::{Errno, Error, Refusal};
use std::{fmt, ptr};
use tazbrev_sys as sys;

/// How large a disk is.
#[derive(Debug, Clone, Copy, PartialEq, Eq)]
pub struct Size {
    /// How many sectors.
    pub sectors: u64,
    /// How many bytes a sector has.
    pub sector: u32,
}

/// What a disk is asked for.
#[derive(Debug, Clone, Copy, PartialEq, Eq)]
pub enum Op {
    /// The bytes of sectors.
    Read,
    /// To write sectors.
    Write,
    /// To make sectors read as zeros.
    Delete,
    /// To keep what was written.
    Flush,
}

/// What a disk is asked.
#[derive(Debug, Clone, Copy, PartialEq, Eq)]
pub struct Asked {
    /// For what the answer is.
    pub bio: u64,
    /// The disk's place in the header.
    pub disk: usize,
    /// What it is asked for.
    pub op: Op,
    /// The first sector.
    pub first: u64,
    /// How many sectors.
    pub count: u32,
}

/// What is due. The bytes of a write that is asked, or of a read that is replied to, are [`Core::bytes`].
#[derive(Debug, Clone, Copy, PartialEq, Eq)]
pub enum Due {
    /// Nothing, until a disk answers or a command comes.
    Idle,
    /// A disk is asked.
    Ask(Asked),
    /// A request is replied to.
    Reply {
        /// The number that its command carried.
        token: u64,
        /// Its error, if it has one.
        error: Option<Errno>,
    },
    /// A step was made inside the mesh.
    Moved,
    /// The same, and the step may have changed the mesh's geoms, providers, consumers, their counts or handles.
    Changed {
        /// How many steps of this sort there were.
        generation: u64,
    },
}

/// A step that is due. As text it is as a trace has it.
#[derive(Debug, Clone, Copy, PartialEq, Eq)]
#[non_exhaustive]
pub enum Step {
    /// A bio that is done goes up.
    Up(u64),
    /// A disk, by its place in the header, takes a bio.
    Take(u32, u64),
    /// A bio begins its way down.
    Start(u64),
    /// The taste under way goes on.
    Judge,
    /// The oldest event is done.
    Event,
    /// A dead handle is let go.
    Reap,
    /// A part of a withering geom goes.
    Wash,
}

impl fmt::Display for Step {
    fn fmt(&self, out: &mut fmt::Formatter<'_>) -> fmt::Result {
        match self {
            Step::Up(bio) => write!(out, "up {bio}"),
            Step::Take(disk, bio) => write!(out, "take {disk} {bio}"),
            Step::Start(bio) => write!(out, "start {bio}"),
            Step::Judge => out.write_str("judge"),
            Step::Event => out.write_str("event"),
            Step::Reap => out.write_str("reap"),
            Step::Wash => out.write_str("wash"),
        }
    }
}

/// What comes of a command: None where it is on its way, else its reply.
pub type Given = Option<Result<(), Errno>>;

/// A handle of the library, with room for the bytes of a request. For loops of one's own; [`crate::Mesh`] is the rest.
#[derive(Debug)]
pub struct Core {
    raw: sys::TzbCore,
    room: Box<[u8]>,
    len: usize,
}

// SAFETY: the handle is reached through its owner alone, and its memory is of malloc. The library has neither a global
// nor a thread's own variable. This is tested, and not proved.
unsafe impl Send for Core {}

fn refusal(code: i32) -> Refusal {
    match code {
        sys::TZB_NO_MEMORY => Refusal::NoMemory,
        sys::TZB_CLOSED => Refusal::Closed,
        sys::TZB_OPEN => Refusal::Open,
        sys::TZB_WRONG => Refusal::Wrong,
        sys::TZB_UNFIT => Refusal::Unfit,
        sys::TZB_ROOM => Refusal::Room,
        other => Refusal::Other(other),
    }
}

fn given(code: i32, error: u32) -> Result<Given, Refusal> {
    match code {
        sys::TZB_OK => Ok(None),
        sys::TZB_REPLIED => Ok(Some(Errno::of(error).map_or(Ok(()), Err))),
        _ => Err(refusal(code)),
    }
}

fn done(code: i32) -> Result<(), Refusal> {
    if code == sys::TZB_OK {
        Ok(())
    } else {
        Err(refusal(code))
    }
}

fn op_of(number: u32) -> Op {
    match number {
        sys::TZB_READ => Op::Read,
        sys::TZB_WRITE => Op::Write,
        sys::TZB_DELETE => Op::Delete,
        _ => Op::Flush,
    }
}

impl Core {
    /// Begins a mesh with a header, over disks of these sizes in its order.
    pub fn open(header: &[u8], sizes: &[Size]) -> Result<Core, Error> {
        let mut core = Core {
            raw: sys::TzbCore {
                is_open: false,
                held: ptr::null_mut(),
            },
            room: vec![0; sys::TZB_MOST_BYTES].into_boxed_slice(),
            len: 0,
        };
        let row = |size: &Size| sys::TzbSize {
            sectors: size.sectors,
            sector: size.sector,
            spare: 0,
        };
        let rows: Vec<sys::TzbSize> = sizes.iter().map(row).collect();
        let mut fault = 0;
        // SAFETY: as the module says; a slice without elements has a pointer that isn't null.
        let code = unsafe {
            let (text, sizes) = (header.as_ptr(), rows.as_ptr());
            sys::tzb_core_open(&mut core.raw, text, header.len(), sizes, rows.len(), &mut fault)
        };
        match code {
            sys::TZB_OK => Ok(core),
            sys::TZB_WRONG => Err(Error::Header { line: fault }),
            _ => Err(refusal(code).into()),
        }
    }

    /// Opens a provider as a handle of an actor, with so many rights.
    pub fn open_handle(
        &mut self,
        actor: u32,
        handle: &str,
        provider: &str,
        counts: (u32, u32, u32),
        token: u64,
    ) -> Result<Given, Refusal> {
        let ((r, w, e), mut error) = (counts, 0);
        let (name, len) = (handle.as_ptr(), handle.len());
        // SAFETY: as the module says.
        let code = unsafe {
            let (at, at_len) = (provider.as_ptr(), provider.len());
            sys::tzb_core_open_handle(&mut self.raw, actor, name, len, at, at_len, r, w, e, token, &mut error)
        };
        given(code, error)
    }

    /// Closes a handle.
    pub fn close_handle(&mut self, actor: u32, handle: &str, token: u64) -> Result<Given, Refusal> {
        self.named(sys::tzb_core_close_handle, actor, handle, token)
    }

    /// Gives a READ.
    pub fn submit_read(
        &mut self,
        actor: u32,
        handle: &str,
        offset: u64,
        len: u64,
        token: u64,
    ) -> Result<Given, Refusal> {
        self.ranged(sys::tzb_core_submit_read, actor, handle, (offset, len), token)
    }

    /// Gives a WRITE.
    pub fn submit_write(
        &mut self,
        actor: u32,
        handle: &str,
        offset: u64,
        bytes: &[u8],
        token: u64,
    ) -> Result<Given, Refusal> {
        let mut error = 0;
        let (name, len) = (handle.as_ptr(), handle.len());
        // SAFETY: as the module says.
        let code = unsafe {
            let (data, size) = (bytes.as_ptr(), bytes.len());
            sys::tzb_core_submit_write(&mut self.raw, actor, name, len, offset, data, size, token, &mut error)
        };
        given(code, error)
    }

    /// Gives a DELETE.
    pub fn submit_delete(
        &mut self,
        actor: u32,
        handle: &str,
        offset: u64,
        len: u64,
        token: u64,
    ) -> Result<Given, Refusal> {
        self.ranged(sys::tzb_core_submit_delete, actor, handle, (offset, len), token)
    }

    /// Gives a FLUSH.
    pub fn submit_flush(&mut self, actor: u32, handle: &str, token: u64) -> Result<Given, Refusal> {
        self.named(sys::tzb_core_submit_flush, actor, handle, token)
    }

    /// Lets a disk stand.
    pub fn insert(&mut self, actor: u32, disk: &str, token: u64) -> Result<Given, Refusal> {
        self.named(sys::tzb_core_insert, actor, disk, token)
    }

    /// Takes a disk away.
    pub fn pull(&mut self, actor: u32, disk: &str, token: u64) -> Result<Given, Refusal> {
        self.named(sys::tzb_core_pull, actor, disk, token)
    }

    /// Gives the one command of a script, as of its line's actor.
    pub fn command(&mut self, script: &[u8], token: u64) -> Result<Given, Refusal> {
        let mut error = 0;
        // SAFETY: as the module says.
        let code = unsafe { sys::tzb_core_command(&mut self.raw, script.as_ptr(), script.len(), token, &mut error) };
        given(code, error)
    }

    /// The mesh as text, as `geomrun` prints it at its end.
    pub fn text(&mut self) -> Result<String, Refusal> {
        let (mut bytes, mut need) = (vec![0; 4096], 0);
        loop {
            // SAFETY: as the module says.
            let code = unsafe { sys::tzb_core_list(&mut self.raw, bytes.as_mut_ptr(), bytes.len(), &mut need) };
            let len = usize::try_from(need).map_err(|_| Refusal::Room)?;
            match code {
                sys::TZB_OK => {
                    bytes.truncate(len);
                    return String::from_utf8(bytes).map_err(|_| Refusal::Wrong);
                }
                sys::TZB_ROOM => bytes.resize(len, 0),
                _ => return Err(refusal(code)),
            }
        }
    }

    /// The step that [`Core::next`] would make now. Nothing is made.
    pub fn due(&mut self) -> Result<Option<Step>, Refusal> {
        let mut step = sys::TzbStep::default();
        // SAFETY: as the module says.
        done(unsafe { sys::tzb_core_due(&mut self.raw, &mut step) })?;
        Ok(match step.kind {
            sys::TZB_STEP_UP => Some(Step::Up(step.bio)),
            sys::TZB_STEP_TAKE => Some(Step::Take(step.place, step.bio)),
            sys::TZB_STEP_START => Some(Step::Start(step.bio)),
            sys::TZB_STEP_JUDGE => Some(Step::Judge),
            sys::TZB_STEP_EVENT => Some(Step::Event),
            sys::TZB_STEP_REAP => Some(Step::Reap),
            sys::TZB_STEP_WASH => Some(Step::Wash),
            _ => None,
        })
    }

    /// Makes the step that is due, and says what is due then.
    #[allow(clippy::should_implement_trait)]
    pub fn next(&mut self) -> Result<Due, Refusal> {
        let mut event = sys::TzbEvent::default();
        // SAFETY: as the module says; the room has the bytes that the call wants.
        let code = unsafe { sys::tzb_core_next(&mut self.raw, &mut event, self.room.as_mut_ptr(), self.room.len()) };
        done(code)?;
        self.len = event.len as usize;
        Ok(match event.kind {
            sys::TZB_ASK => Due::Ask(Asked {
                bio: event.bio,
                disk: event.disk as usize,
                op: op_of(event.op),
                first: event.first,
                count: event.count,
            }),
            sys::TZB_REPLY => Due::Reply {
                token: event.token,
                error: Errno::of(event.error),
            },
            sys::TZB_MOVED => Due::Moved,
            sys::TZB_CHANGED => Due::Changed {
                generation: event.generation,
            },
            _ => Due::Idle,
        })
    }

    /// The bytes that the last step brought.
    pub fn bytes(&self) -> &[u8] {
        &self.room[..self.len]
    }

    /// A READ of a disk was done: its bytes.
    pub fn answer_bytes(&mut self, bio: u64, bytes: &[u8]) -> Result<(), Refusal> {
        // SAFETY: as the module says.
        done(unsafe { sys::tzb_core_answer_bytes(&mut self.raw, bio, bytes.as_ptr(), bytes.len()) })
    }

    /// A WRITE, a DELETE or a FLUSH of a disk was done.
    pub fn answer_done(&mut self, bio: u64) -> Result<(), Refusal> {
        // SAFETY: as the module says.
        done(unsafe { sys::tzb_core_answer_done(&mut self.raw, bio) })
    }

    /// What a disk was asked failed after so many sectors; 0 for a READ and a FLUSH.
    pub fn answer_failed(&mut self, bio: u64, done_sectors: u32) -> Result<(), Refusal> {
        // SAFETY: as the module says.
        done(unsafe { sys::tzb_core_answer_failed(&mut self.raw, bio, done_sectors) })
    }

    /// How many requests wait for their reply.
    pub fn waiting(&mut self) -> u64 {
        // SAFETY: as the module says.
        unsafe { sys::tzb_core_waiting(&mut self.raw) }
    }

    /// How many steps were made.
    pub fn steps(&mut self) -> u64 {
        // SAFETY: as the module says.
        unsafe { sys::tzb_core_steps(&mut self.raw) }
    }

    /// How many steps may have changed the mesh's geoms, providers, consumers, their counts or handles.
    pub fn generation(&mut self) -> u64 {
        // SAFETY: as the module says.
        unsafe { sys::tzb_core_generation(&mut self.raw) }
    }

    fn named(&mut self, call: Named, actor: u32, name: &str, token: u64) -> Result<Given, Refusal> {
        let mut error = 0;
        // SAFETY: as the module says; the call is one of the library's.
        let code = unsafe { call(&mut self.raw, actor, name.as_ptr(), name.len(), token, &mut error) };
        given(code, error)
    }

    fn ranged(
        &mut self,
        call: Ranged,
        actor: u32,
        name: &str,
        range: (u64, u64),
        token: u64,
    ) -> Result<Given, Refusal> {
        let mut error = 0;
        // SAFETY: as the module says; the call is one of the library's.
        let code = unsafe {
            call(
                &mut self.raw,
                actor,
                name.as_ptr(),
                name.len(),
                range.0,
                range.1,
                token,
                &mut error,
            )
        };
        given(code, error)
    }
}

type Named = unsafe extern "C" fn(*mut sys::TzbCore, u32, *const u8, usize, u64, *mut u32) -> i32;
type Ranged = unsafe extern "C" fn(*mut sys::TzbCore, u32, *const u8, usize, u64, u64, u64, *mut u32) -> i32;

impl Drop for Core {
    fn drop(&mut self) {
        // SAFETY: as the module says; a handle that is closed may be closed again.
        unsafe { sys::tzb_core_close(&mut self.raw) }
    }
}
