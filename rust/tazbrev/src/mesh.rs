//! A mesh over disks, its handles and its requests.

use crate::core::{Asked, Core, Due, Given, Op, Size};
use crate::disk::{Disk, Fault, MemoryDisk};
use crate::error::{Errno, Error, Refusal};
use crate::header::Header;
use crate::rows::{self, Counts, Geom};
use crate::trace::{Runs, Trace};
use std::collections::HashMap;

/// A handle of an actor at a provider. It borrows nothing: calls take it beside the mesh.
#[derive(Debug, Clone, PartialEq, Eq, Hash)]
pub struct Handle {
    actor: u32,
    name: String,
}

/// A request whose reply is to come. [`Mesh::wait`] and [`Mesh::poll`] take the reply, once.
#[derive(Debug, Clone, Copy, PartialEq, Eq, Hash, PartialOrd, Ord)]
#[must_use = "the mesh keeps the reply until it is taken"]
pub struct Request(u64);

/// What a disk answers that answers later.
#[derive(Debug, Clone, Copy, PartialEq, Eq)]
pub enum Answer<'a> {
    /// A read was done: its bytes.
    Bytes(&'a [u8]),
    /// A write, a delete or a flush was done.
    Done,
    /// It failed after so many sectors; 0 for a read and a flush.
    Failed(u32),
}

/// What a request is replied: the bytes of a read, else none.
pub type Reply = Result<Vec<u8>, Errno>;

/// A disk of the caller's, or one that a `ram` line makes.
#[derive(Debug)]
enum Slot<D> {
    Given(D),
    Memory(MemoryDisk),
}

impl<D: Disk> Slot<D> {
    fn disk(&mut self) -> &mut dyn Disk {
        match self {
            Slot::Given(disk) => disk,
            Slot::Memory(disk) => disk,
        }
    }
}

/// A mesh over disks. It makes steps while it is called, and has no thread of its own.
///
/// ```
/// use tazbrev::{Counts, Mesh};
///
/// # fn main() -> Result<(), tazbrev::Error> {
/// let mut mesh = Mesh::in_memory("ram md0 512 16\nactor a\n")?;
/// let handle = mesh.open("a", "h", "md0", Counts::READ_WRITE)?;
/// mesh.write(&handle, 512, &[7; 512])?;
/// assert_eq!(mesh.read(&handle, 512, 512)?, [7; 512]);
/// mesh.close(&handle)?;
/// # Ok(())
/// # }
/// ```
#[derive(Debug)]
pub struct Mesh<D = Box<dyn Disk + Send>> {
    core: Core,
    header: Header,
    slots: Vec<Slot<D>>,
    replies: HashMap<u64, Reply>,
    // What disks were asked that answer later.
    later: HashMap<u64, Asked>,
    // The answer that memory was wanting for, to be given again.
    kept: Option<(Asked, Result<(), u32>)>,
    // The bytes that a disk fills.
    room: Vec<u8>,
    token: u64,
    trace: Option<Trace>,
}

impl Mesh {
    /// A mesh whose header has `ram` lines alone.
    pub fn in_memory(header: &str) -> Result<Mesh, Error> {
        Mesh::new(header, Vec::new())
    }
}

impl<D: Disk> Mesh<D> {
    /// A mesh over the disks of the header's `disk` lines, in their order. For a `ram` line a [`MemoryDisk`] is made.
    pub fn new(header: &str, disks: Vec<D>) -> Result<Mesh<D>, Error> {
        Mesh::made(header, disks, false)
    }

    /// The same, with a [`Trace`] that hears of each step.
    pub fn traced(header: &str, disks: Vec<D>) -> Result<Mesh<D>, Error> {
        Mesh::made(header, disks, true)
    }

    fn made(header: &str, disks: Vec<D>, is_traced: bool) -> Result<Mesh<D>, Error> {
        let header = Header::new(header)?;
        let mut slots = placed(&header, disks)?;
        let sizes: Vec<Size> = slots
            .iter_mut()
            .map(|slot| Size {
                sectors: slot.disk().sectors(),
                sector: slot.disk().sector(),
            })
            .collect();
        let core = Core::open(header.text.as_bytes(), &sizes)?;
        let sectors: Vec<u64> = sizes.iter().map(|size| size.sectors).collect();
        let mut mesh = Mesh {
            trace: is_traced.then(|| Trace::begun(&header, &sectors)),
            core,
            header,
            slots,
            replies: HashMap::new(),
            later: HashMap::new(),
            kept: None,
            room: Vec::new(),
            token: 0,
        };
        mesh.run()?;
        Ok(mesh)
    }

    /// The disk of the caller's at a place of the header; None for one of a `ram` line.
    pub fn disk(&mut self, place: usize) -> Option<&mut D> {
        match self.slots.get_mut(place)? {
            Slot::Given(disk) => Some(disk),
            Slot::Memory(_) => None,
        }
    }

    /// Lets the mesh go, and gives back the disks. Requests that wait get no reply.
    pub fn into_disks(self) -> Vec<D> {
        let given = |slot| match slot {
            Slot::Given(disk) => Some(disk),
            Slot::Memory(_) => None,
        };
        self.slots.into_iter().filter_map(given).collect()
    }

    /// What was heard so far, of a mesh that is [`Mesh::traced`].
    pub fn trace(&self) -> Option<&Trace> {
        self.trace.as_ref()
    }

    /// How many requests wait for their reply.
    pub fn waiting(&mut self) -> u64 {
        self.core.waiting()
    }

    /// How many steps were made.
    pub fn steps(&mut self) -> u64 {
        self.core.steps()
    }

    /// How many steps may have changed what a listing shows; while it stays, nothing has changed there.
    pub fn generation(&mut self) -> u64 {
        self.core.generation()
    }

    /// The mesh as `geomrun` prints it at its end.
    pub fn text(&mut self) -> Result<String, Error> {
        self.run()?;
        Ok(self.core.text()?)
    }

    /// The geoms, each with its providers and consumers.
    pub fn list(&mut self) -> Result<Vec<Geom>, Error> {
        rows::parse(&self.text()?)
    }

    // Commands. Each is made at once, and the mesh then goes on as far as it can.

    /// Opens a provider under a name of the actor's, with so many rights, 0 to 9 each and not all 0.
    pub fn open(&mut self, actor: &str, name: &str, provider: &str, counts: Counts) -> Result<Handle, Error> {
        let handle = Handle {
            actor: self.actor(actor)?,
            name: name.to_owned(),
        };
        let (token, rights) = (self.token, (counts.r, counts.w, counts.e));
        let given = self.core.open_handle(handle.actor, name, provider, rights, token);
        let Counts { r, w, e } = counts;
        self.hear(&given, actor, || format!("open {name} {provider} r{r}w{w}e{e}"));
        self.at_once(given)?;
        Ok(handle)
    }

    /// Closes a handle. `Busy` while one of its requests is out: it stays open then.
    pub fn close(&mut self, handle: &Handle) -> Result<(), Error> {
        let given = self.core.close_handle(handle.actor, &handle.name, self.token);
        self.hear_at(&given, handle.actor, || format!("close {}", handle.name));
        self.at_once(given)
    }

    /// Lets a disk of the header stand that comes `later`, or that was pulled. It is the first actor's command.
    pub fn insert(&mut self, disk: &str) -> Result<(), Error> {
        let given = self.core.insert(0, disk, self.token);
        self.hear_at(&given, 0, || format!("insert {disk}"));
        self.at_once(given)
    }

    /// Takes a disk away: its geom withers, and is let go once nothing uses it. It is the first actor's command.
    pub fn pull(&mut self, disk: &str) -> Result<(), Error> {
        let given = self.core.pull(0, disk, self.token);
        self.hear_at(&given, 0, || format!("pull {disk}"));
        self.at_once(given)
    }

    /// Gives a line of a script, with its actor in front, and waits for its reply: the bytes of a read.
    pub fn command(&mut self, line: &str) -> Result<Vec<u8>, Error> {
        self.run()?;
        let request = self.submit_command(line)?;
        let reply = self.wait(request);
        self.go_on()?;
        reply
    }

    /// Gives a line of a script. `Unfit` for a `sync` or `settle` that has to wait.
    pub fn submit_command(&mut self, line: &str) -> Result<Request, Error> {
        let script = format!("{}{line}\n", self.header.text);
        let given = self.core.command(script.as_bytes(), self.token);
        if let Some((actor, command)) = line.split_once(' ') {
            self.hear(&given, actor, || command.to_owned());
        }
        self.on_its_way(given)
    }

    // Requests.

    /// Gives a read of whole sectors, 32,768 bytes at most.
    pub fn submit_read(&mut self, handle: &Handle, offset: u64, len: u64) -> Result<Request, Error> {
        let given = self
            .core
            .submit_read(handle.actor, &handle.name, offset, len, self.token);
        self.hear_at(&given, handle.actor, || format!("read {} {offset} {len}", handle.name));
        self.on_its_way(given)
    }

    /// Gives a write of whole sectors, 32,768 bytes at most. The bytes are copied.
    pub fn submit_write(&mut self, handle: &Handle, offset: u64, bytes: &[u8]) -> Result<Request, Error> {
        let given = self
            .core
            .submit_write(handle.actor, &handle.name, offset, bytes, self.token);
        self.hear_at(&given, handle.actor, || {
            format!("write {} {offset} {}", handle.name, Runs(bytes))
        });
        self.on_its_way(given)
    }

    /// Gives a delete: the bytes read as zeros then.
    pub fn submit_delete(&mut self, handle: &Handle, offset: u64, len: u64) -> Result<Request, Error> {
        let given = self
            .core
            .submit_delete(handle.actor, &handle.name, offset, len, self.token);
        self.hear_at(&given, handle.actor, || {
            format!("delete {} {offset} {len}", handle.name)
        });
        self.on_its_way(given)
    }

    /// Gives a flush: the disks keep what was written.
    pub fn submit_flush(&mut self, handle: &Handle) -> Result<Request, Error> {
        let given = self.core.submit_flush(handle.actor, &handle.name, self.token);
        self.hear_at(&given, handle.actor, || format!("flush {}", handle.name));
        self.on_its_way(given)
    }

    /// Reads, and waits for the bytes.
    pub fn read(&mut self, handle: &Handle, offset: u64, len: u64) -> Result<Vec<u8>, Error> {
        let request = self.submit_read(handle, offset, len)?;
        self.wait(request)
    }

    /// Reads into bytes of the caller's, and waits for them.
    pub fn read_into(&mut self, handle: &Handle, offset: u64, bytes: &mut [u8]) -> Result<(), Error> {
        let request = self.submit_read(handle, offset, bytes.len() as u64)?;
        self.reach(request, |got| bytes.copy_from_slice(got))
    }

    /// Writes, and waits for the reply.
    pub fn write(&mut self, handle: &Handle, offset: u64, bytes: &[u8]) -> Result<(), Error> {
        let request = self.submit_write(handle, offset, bytes)?;
        self.reach(request, |_| ())
    }

    /// Deletes, and waits for the reply.
    pub fn delete(&mut self, handle: &Handle, offset: u64, len: u64) -> Result<(), Error> {
        let request = self.submit_delete(handle, offset, len)?;
        self.reach(request, |_| ())
    }

    /// Flushes, and waits for the reply.
    pub fn flush(&mut self, handle: &Handle) -> Result<(), Error> {
        let request = self.submit_flush(handle)?;
        self.reach(request, |_| ())
    }

    // Going on.

    /// Makes steps until nothing is due. Disks that answer later are left waiting.
    pub fn run(&mut self) -> Result<(), Error> {
        while self.turn()?.is_some() {}
        Ok(())
    }

    /// Goes on until a request is replied to, and takes its reply: the bytes of a read, else none.
    ///
    /// `Waits` where nothing is due before a disk answers that answers later; the request stays out then.
    pub fn wait(&mut self, request: Request) -> Result<Vec<u8>, Error> {
        self.reach(request, <[u8]>::to_vec)
    }

    /// The reply of a request, if it is there. It makes no step.
    pub fn poll(&mut self, request: Request) -> Option<Result<Vec<u8>, Error>> {
        Some(self.replies.remove(&request.0)?.map_err(Error::Geom))
    }

    /// A request that is replied to, with its reply. It makes steps until there is one, or nothing is due.
    pub fn next_reply(&mut self) -> Result<Option<(Request, Reply)>, Error> {
        while self.replies.is_empty() && self.turn()?.is_some() {}
        let first = self.replies.keys().min().copied();
        Ok(first.and_then(|token| Some((Request(token), self.replies.remove(&token)?))))
    }

    /// What disks were asked that answer later, in the order of their bios.
    pub fn asked(&self) -> Vec<Asked> {
        let mut asked: Vec<Asked> = self.later.values().copied().collect();
        asked.sort_by_key(|it| it.bio);
        asked
    }

    /// Gives the answer of a disk that answers later. `Unfit` for one that isn't an answer to what was asked.
    pub fn answer(&mut self, asked: &Asked, answer: Answer<'_>) -> Result<(), Error> {
        match answer {
            Answer::Bytes(bytes) => self.core.answer_bytes(asked.bio, bytes)?,
            Answer::Done => self.core.answer_done(asked.bio)?,
            Answer::Failed(done) => self.core.answer_failed(asked.bio, done)?,
        }
        self.hear_answer(asked.bio, answer);
        self.later.remove(&asked.bio);
        Ok(())
    }

    /// Goes on until a request is replied to, and hands on the bytes of its reply.
    fn reach<T>(&mut self, request: Request, take: impl FnOnce(&[u8]) -> T) -> Result<T, Error> {
        if let Some(reply) = self.replies.remove(&request.0) {
            return reply.map(|bytes| take(&bytes)).map_err(Error::Geom);
        }
        loop {
            match self.step()? {
                Some(Due::Reply { token, error }) if token == request.0 => {
                    return error.map_or_else(|| Ok(take(self.core.bytes())), |errno| Err(errno.into()));
                }
                Some(due) => self.keep(due),
                None if self.later.is_empty() => return Err(Error::NotOut),
                None => return Err(Error::Waits),
            }
        }
    }

    /// Makes one step, and keeps the reply that it brings. None where nothing is due.
    fn turn(&mut self) -> Result<Option<()>, Error> {
        Ok(self.step()?.map(|due| self.keep(due)))
    }

    fn keep(&mut self, due: Due) {
        if let Due::Reply { token, error } = due {
            let reply = error.map_or_else(|| Ok(self.core.bytes().to_vec()), Err);
            self.replies.insert(token, reply);
        }
    }

    /// Makes one step, and asks the disk that is to be asked. None where nothing is due.
    fn step(&mut self) -> Result<Option<Due>, Error> {
        if let Some((asked, got)) = self.kept.take() {
            self.tell(asked, got)?;
        }
        let due = self.next()?;
        if let Due::Ask(asked) = due {
            match self.ask(&asked) {
                Ok(()) => self.tell(asked, Ok(()))?,
                Err(Fault::Failed { done }) => self.tell(asked, Err(done))?,
                Err(Fault::Later) => {
                    self.later.insert(asked.bio, asked);
                }
            }
        }
        Ok(Some(due).filter(|it| *it != Due::Idle))
    }

    /// Makes one step, of which the trace hears.
    fn next(&mut self) -> Result<Due, Refusal> {
        let Some(trace) = &mut self.trace else {
            return self.core.next();
        };
        let step = self.core.due()?;
        let due = self.core.next()?;
        if let Some(step) = step {
            trace.made(step);
        }
        if let Due::Reply { token, error } = due {
            trace.replied(token, error, self.core.bytes(), "");
        }
        Ok(due)
    }

    fn ask(&mut self, asked: &Asked) -> Result<(), Fault> {
        let disk = self.slots[asked.disk].disk();
        match asked.op {
            Op::Read => {
                // What was there is written over, so it isn't made zeros before.
                self.room.resize(asked.count as usize * disk.sector() as usize, 0);
                disk.read(asked, &mut self.room)
            }
            Op::Write => disk.write(asked, self.core.bytes()),
            Op::Delete => disk.delete(asked),
            Op::Flush => disk.flush(asked),
        }
    }

    /// Gives a disk's answer. A number of sectors that doesn't fit is taken as 0. Where memory is wanting it is kept.
    fn tell(&mut self, asked: Asked, got: Result<(), u32>) -> Result<(), Error> {
        let told = match (got, asked.op) {
            (Ok(()), Op::Read) => self.core.answer_bytes(asked.bio, &self.room),
            (Ok(()), _) => self.core.answer_done(asked.bio),
            (Err(done), _) => self.tell_failed(asked.bio, done),
        };
        if told == Err(Refusal::NoMemory) {
            self.kept = Some((asked, got));
        }
        told?;
        let room = std::mem::take(&mut self.room);
        match (got, asked.op) {
            (Ok(()), Op::Read) => self.hear_answer(asked.bio, Answer::Bytes(&room)),
            (Ok(()), _) => self.hear_answer(asked.bio, Answer::Done),
            // It was heard as it was taken.
            (Err(_), _) => {}
        }
        self.room = room;
        Ok(())
    }

    fn tell_failed(&mut self, bio: u64, done: u32) -> Result<(), Refusal> {
        let taken = match self.core.answer_failed(bio, done) {
            Err(Refusal::Unfit) => self.core.answer_failed(bio, 0).map(|()| 0),
            other => other.map(|()| done),
        };
        taken.map(|done| self.hear_answer(bio, Answer::Failed(done)))
    }

    // What the trace hears, if there is one.

    /// A command of an actor was given.
    fn hear(&mut self, given: &Result<Given, Refusal>, actor: &str, command: impl FnOnce() -> String) {
        if self.trace.is_none() {
            return;
        }
        let place = self.header.actors.iter().position(|it| it == actor);
        if let (Some(trace), Ok(reply), Some(place)) = (&mut self.trace, given, place) {
            let command = command();
            trace.given(self.token, (actor, place as u32), &command);
            if let Some(reply) = reply {
                let listing = if command == "mesh" {
                    self.core.text()
                } else {
                    Ok(String::new())
                };
                trace.replied(self.token, reply.err(), &[], &listing.unwrap_or_default());
            }
        }
    }

    /// The same by the actor's place.
    fn hear_at(&mut self, given: &Result<Given, Refusal>, place: u32, command: impl FnOnce() -> String) {
        if self.trace.is_some() {
            if let Some(actor) = self.header.actors.get(place as usize).cloned() {
                self.hear(given, &actor, command);
            }
        }
    }

    /// A disk's answer was delivered.
    fn hear_answer(&mut self, bio: u64, answer: Answer<'_>) {
        if let Some(trace) = &mut self.trace {
            let said = match answer {
                Answer::Bytes(bytes) => format!("bytes {}", Runs(bytes)),
                Answer::Done => "done".to_owned(),
                Answer::Failed(done) => format!("failed {done}"),
            };
            trace.delivered(bio, &said);
        }
    }

    fn actor(&self, name: &str) -> Result<u32, Error> {
        let place = self.header.actors.iter().position(|it| it == name);
        place.map(|it| it as u32).ok_or_else(|| Error::Actor(name.to_owned()))
    }

    /// The request that was just given with the next token.
    fn on_its_way(&mut self, given: Result<Given, Refusal>) -> Result<Request, Error> {
        let token = self.token;
        let given = given?;
        self.token += 1;
        if let Some(reply) = given {
            self.replies.insert(token, reply.map(|()| Vec::new()));
        }
        Ok(Request(token))
    }

    /// The reply to a command that was just given, after which the mesh goes on as far as it can.
    fn at_once(&mut self, given: Result<Given, Refusal>) -> Result<(), Error> {
        let request = self.on_its_way(given)?;
        let reply = self.wait(request);
        self.go_on()?;
        reply.map(|_| ())
    }

    /// Goes on behind a command. Where memory is wanting the command is done, and the next call goes on from there.
    fn go_on(&mut self) -> Result<(), Error> {
        match self.run() {
            Err(Error::Call(Refusal::NoMemory)) => Ok(()),
            other => other,
        }
    }
}

/// The disks in the order of the header.
fn placed<D>(header: &Header, disks: Vec<D>) -> Result<Vec<Slot<D>>, Error> {
    let lines = header.disks.iter().filter(|it| it.ram.is_none()).count();
    if lines != disks.len() {
        return Err(Error::Disks {
            lines,
            given: disks.len(),
        });
    }
    let mut disks = disks.into_iter();
    let slot = |line: &crate::header::DiskLine| match line.ram {
        Some(sectors) => Some(Slot::Memory(MemoryDisk::new(sectors, line.sector))),
        None => disks.next().map(Slot::Given),
    };
    Ok(header.disks.iter().filter_map(slot).collect())
}
