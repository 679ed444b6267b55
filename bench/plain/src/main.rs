//! The baseline of the measurements: a plain program of the same model, with nothing proved. It reads a script, makes
//! the steps in the fixed order (requests, events, tastes, reaps, washes), keeps a log of them, and prints the report
//! of `geomrun step`; with the word `trace` it prints a trace, for `geomrun verify`. It knows every command but `mark`
//! and `append`: a taste asks CONCAT and STRIPE, and they read their sector, but never find a record in it. It has no
//! faults of the outside, and takes a script that is right for granted.
//!
//! In this order a command finds all at rest: nothing withers, no provider carries an error, no request is out, and a
//! handle is dead exactly if its consumer is gone. No taste is cut short. What is washed isn't open any more, and no
//! event is queued then.
use std::collections::{BTreeMap, BTreeSet, HashMap, VecDeque};
use std::fmt::Write as _;
use std::fs::{File, OpenOptions};
use std::io::Write as _;
use std::ops::{Index, IndexMut};
use std::os::unix::fs::FileExt;
use std::rc::Rc;

const MAX_COUNT: i64 = i32::MAX as i64;
const MAX_LINKS: usize = 32;
const MAX_MEDIA: u64 = 1 << 60;
const MAX_NAME: usize = 63;
const MAX_RANK: u32 = 32;
const MAX_REQUEST: u64 = 32768;
const UNTASTED_RANK: u32 = 8;

#[derive(Clone, Copy, PartialEq)]
enum Cmd { Read, Write, Delete, Flush }

#[derive(Clone)]
enum Answer { Ok, Bytes(Rc<Vec<u8>>), Mesh(String), Failed(&'static str) }
use Answer::Failed;

enum Owner { Line(usize), Taste, Child(u64) }
struct Request { cmd: Cmd, at: u64, len: u64, bytes: Vec<u8> }
/// `kids` are the number of the first child and how many there are; `left` is how many of them aren't back.
struct Bio { request: Request, prov: usize, owner: Owner, kids: (u64, u64), left: u64, answer: Option<Answer> }

/// What a step replies to a line, if it does.
type Reply = Option<(usize, Answer)>;
#[allow(dead_code)]
enum Entry {
    Go(usize, Reply), Start(u64), Take(u64, usize, Request), Deliver(u64, Answer), Up(u64, Reply),
    Judge, Event, Reap, Wash,
}

/// What a command comes to; an accepted request has no answer yet.
type Outcome = Result<Option<Answer>, &'static str>;
const DONE: Outcome = Ok(Some(Answer::Ok));

fn refuse_if(is_so: bool, error: &'static str) -> Result<(), &'static str> {
    if is_so { Err(error) } else { Ok(()) }
}

#[derive(Clone, Copy, PartialEq)]
enum Class { Disk, Mbr, Ebr, Label, Concat, Stripe, Nop }
const CLASSES: [&str; 7] = ["DISK", "MBR", "EBR", "LABEL", "CONCAT", "STRIPE", "NOP"];
const TASTED: [Class; 5] = [Class::Mbr, Class::Ebr, Class::Label, Class::Concat, Class::Stripe];

/// How a geom serves requests; MBR, EBR, LABEL and NOP are windows.
enum Kind { Disk(usize), Window { fail: u64, started: u64 }, Concat, Stripe(u64) }
const WINDOW: Kind = Kind::Window { fail: 0, started: 0 };

type Counts = [i64; 3];
/// A consumer of a handle or of a taste has no geom.
struct Cons { geom: Option<usize>, prov: usize, counts: Counts }
/// `base` is where a window begins. `above` are the consumers at it, `autos` the geoms that tastes made on it, and
/// `over` says of each class how many consumers at it are of geoms that don't wither.
#[derive(Default)]
struct Prov {
    name: String, geom: usize, size: u64, sector: u64, base: u64, is_errored: bool, counts: Counts,
    above: BTreeSet<usize>, autos: Vec<usize>, over: [u32; CLASSES.len()],
}
/// `counts` are the sums over its providers.
struct Geom {
    class: Class, kind: Kind, name: String, provs: Vec<usize>, below: Vec<usize>, counts: Counts, rank: u32,
    is_withering: bool,
}

enum Media { Ram(Vec<u8>), Image(File) }
struct Disk<'a> { name: &'a str, media: Media, sector: u64, size: u64, geom: Option<usize> }

/// A spoil has the geoms that have to go.
enum Event { New(usize), Spoil(Vec<usize>), Orphan(usize) }
/// `asked` classes were asked. The last one reads the sector `at`, next if it `is_due`, and `got` is what came back.
/// `links` are those of EBR, each with its sector and the partition that it names.
struct Taste {
    prov: usize, cons: usize, asked: usize, at: u64, is_due: bool, got: Option<Answer>,
    links: Vec<(u64, Option<(u64, u64)>)>,
}

/// Parts by their numbers, none of which is used again.
struct Table<T>(Vec<Option<T>>);

impl<T> Default for Table<T> {
    fn default() -> Self { Table(vec![]) }
}

impl<T> Table<T> {
    fn add(&mut self, part: T) -> usize {
        self.0.push(Some(part));
        self.0.len() - 1
    }
}

impl<T> Index<usize> for Table<T> {
    type Output = T;
    fn index(&self, number: usize) -> &T { self.0[number].as_ref().unwrap() }
}

impl<T> IndexMut<usize> for Table<T> {
    fn index_mut(&mut self, number: usize) -> &mut T { self.0[number].as_mut().unwrap() }
}

/// `names` are those of the providers without an error, `dead` the consumers of dead handles, and `washable` the
/// withering geoms of which something may go.
#[derive(Default)]
struct Mesh<'a> {
    disks: Vec<Disk<'a>>, geoms: Table<Geom>, provs: Table<Prov>, conss: Table<Cons>, names: HashMap<String, usize>,
    handles: HashMap<(usize, &'a str), usize>, bios: BTreeMap<u64, Bio>, last: u64,
    down: BTreeSet<u64>, sent: BTreeSet<u64>, up: BTreeSet<u64>, log: Vec<Entry>,
    events: VecDeque<Event>, taste: Option<Taste>, dead: BTreeSet<usize>, washable: BTreeSet<usize>,
}

impl Geom {
    /// What each of its consumers wants.
    fn wants(&self) -> Counts {
        let is_exclusive = self.class != Class::Nop && self.counts != [0; 3];
        let [r, w, e] = self.counts;
        [r, w, e + is_exclusive as i64].map(|n| n.min(MAX_COUNT + 1))
    }
}

impl<'a> Mesh<'a> {
    // Geoms, and what they have

    fn rank_over(&self, on: &[usize]) -> u32 {
        1 + on.iter().map(|p| self.geoms[self.provs[*p].geom].rank).max().unwrap_or(0)
    }

    /// Makes a geom on some providers. Each of its own is offered for taste.
    fn add_geom(&mut self, class: Class, kind: Kind, name: &str, provs: Vec<Prov>, on: &[usize]) -> usize {
        let (name, rank, [own, below]) = (name.to_string(), self.rank_over(on), [vec![], vec![]]);
        let geom = Geom { class, kind, name, provs: own, below, counts: [0; 3], rank, is_withering: false };
        let geom = self.geoms.add(geom);
        for prov in on {
            let cons = self.attach(Some(geom), *prov);
            self.geoms[geom].below.push(cons);
            self.provs[*prov].over[class as usize] += 1;
            if matches!(class, Class::Mbr | Class::Ebr | Class::Label) {
                self.provs[*prov].autos.push(geom);
            }
        }
        for prov in provs {
            let name = prov.name.clone();
            let prov = self.provs.add(Prov { geom, ..prov });
            self.names.insert(name, prov);
            self.geoms[geom].provs.push(prov);
            self.events.push_back(Event::New(prov));
        }
        geom
    }

    fn stand(&mut self, number: usize) {
        let Disk { name, sector, size, .. } = self.disks[number];
        let prov = new_prov(name.to_string(), 0, size, sector);
        let geom = self.add_geom(Class::Disk, Kind::Disk(number), name, vec![prov], &[]);
        self.disks[number].geom = Some(geom);
    }

    fn attach(&mut self, geom: Option<usize>, prov: usize) -> usize {
        let cons = self.conss.add(Cons { geom, prov, counts: [0; 3] });
        self.provs[prov].above.insert(cons);
        cons
    }

    /// Takes a consumer away, and gives its provider.
    fn detach(&mut self, cons: usize) -> usize {
        let prov = self.conss.0[cons].take().unwrap().prov;
        self.provs[prov].above.remove(&cons);
        prov
    }

    /// Gives a consumer its counts, and all below it what they then want, the geoms of the highest rank first, so that
    /// each comes once. Says what is against it, and which providers got a writer or lost the last one.
    fn grant(&mut self, cons: usize, counts: Counts) -> (Option<&'static str>, Vec<usize>) {
        let (mut due, mut next, mut turned) = (vec![(cons, counts)], BTreeSet::new(), vec![]);
        let (mut is_clash, mut is_over) = (false, false);
        loop {
            for (cons, counts) in due.drain(..) {
                let cons = &mut self.conss[cons];
                let old = std::mem::replace(&mut cons.counts, counts);
                let prov = &mut self.provs[cons.prov];
                let geom = &mut self.geoms[prov.geom];
                let had = prov.counts[1] > 0;
                for k in 0..3 {
                    prov.counts[k] += counts[k] - old[k];
                    geom.counts[k] += counts[k] - old[k];
                }
                let [_, writers, exclusive] = prov.counts;
                is_clash |= counts[1] > 0 && exclusive > counts[2] || counts[2] > 0 && writers > counts[1];
                is_over |= prov.counts.iter().any(|n| *n > MAX_COUNT);
                if had != (writers > 0) {
                    turned.push(cons.prov);
                }
                if old != counts && !geom.below.is_empty() {
                    next.insert((geom.rank, prov.geom));
                }
            }
            let Some((_, geom)) = next.pop_last() else { break };
            let geom = &self.geoms[geom];
            due.extend(geom.below.iter().map(|cons| (*cons, geom.wants())));
        }
        turned.sort_unstable();
        (is_clash.then_some("EPERM").or(is_over.then_some("EOVERFLOW")), turned)
    }

    /// A consumer of a handle or of a taste goes. Each provider whose last writer it was is offered for taste again.
    fn release(&mut self, cons: usize) {
        let (_, fallen) = self.grant(cons, [0; 3]);
        self.detach(cons);
        let offered = fallen.into_iter().filter(|p| !self.provs[*p].is_errored);
        self.events.extend(offered.map(Event::New));
    }

    fn wither(&mut self, number: usize) {
        let geom = &mut self.geoms[number];
        if std::mem::replace(&mut geom.is_withering, true) {
            return;
        }
        self.washable.insert(number);
        for cons in &geom.below {
            self.provs[self.conss[*cons].prov].over[geom.class as usize] -= 1;
        }
        for number in &geom.provs {
            let prov = &mut self.provs[*number];
            prov.is_errored = true;
            self.names.remove(&prov.name);
            self.events.push_back(Event::Orphan(*number));
        }
    }

    // Requests

    fn submit(&mut self, request: Request, prov: usize, owner: Owner) {
        self.last += 1;
        self.bios.insert(self.last, Bio { request, prov, owner, kids: (0, 0), left: 0, answer: None });
        self.down.insert(self.last);
    }

    /// The pieces of a range of a provider: component, offset there, length.
    fn pieces(&self, prov: &Prov, mut at: u64, len: u64) -> Vec<(usize, u64, u64)> {
        let geom = &self.geoms[prov.geom];
        let (n, end, mut start, mut pieces) = (geom.below.len() as u64, at + len, 0, vec![]);
        match geom.kind {
            Kind::Window { .. } => pieces.push((0, prov.base + at, len)),
            Kind::Stripe(strip) => while at < end {
                let (k, stop) = (at / strip, end.min((at / strip + 1) * strip));
                pieces.push(((k % n) as usize, k / n * strip + at % strip, stop - at));
                at = stop;
            },
            _ => for (k, cons) in geom.below.iter().enumerate() {
                let size = self.provs[self.conss[*cons].prov].size;
                let stop = end.min(start + size);
                if at < stop {
                    pieces.push((k, at - start, stop - at));
                    at = stop;
                }
                start += size;
            },
        }
        pieces
    }

    fn start(&mut self, number: u64) {
        self.log.push(Entry::Start(number));
        let bio = &self.bios[&number];
        let prov = &self.provs[bio.prov];
        match &mut self.geoms[prov.geom].kind {
            Kind::Disk(_) => { self.sent.insert(number); return }
            Kind::Window { fail, started } => {
                *started += 1;
                if *fail != 0 && *started % *fail == 0 {
                    return self.answer(number, Failed("EIO"));
                }
            }
            _ => {}
        }
        let (geom, request) = (&self.geoms[prov.geom], &bio.request);
        let pieces = match request.cmd {
            Cmd::Flush => (0..geom.below.len()).map(|k| (k, 0, 0)).collect(),
            _ => self.pieces(prov, request.at, request.len),
        };
        let (mut from, mut kids) = (0, vec![]);
        for (k, at, len) in pieces {
            let bytes = request.bytes.get(from..from + len as usize).unwrap_or(&[]).to_vec();
            from += len as usize;
            kids.push((Request { cmd: request.cmd, at, len, bytes }, self.conss[geom.below[k]].prov));
        }
        let (first, bio) = (self.last + 1, self.bios.get_mut(&number).unwrap());
        (bio.kids, bio.left) = ((first, kids.len() as u64), kids.len() as u64);
        kids.into_iter().for_each(|(request, prov)| self.submit(request, prov, Owner::Child(number)));
    }

    fn answer(&mut self, number: u64, answer: Answer) {
        self.bios.get_mut(&number).unwrap().answer = Some(answer);
        self.up.insert(number);
    }

    fn take(&mut self, number: u64) {
        let bio = &self.bios[&number];
        let Kind::Disk(disk) = self.geoms[self.provs[bio.prov].geom].kind else { unreachable!() };
        let Request { cmd, at, len, .. } = bio.request;
        let request = Request { cmd, at, len, bytes: bio.request.bytes.clone() };
        let answer = serve(&mut self.disks[disk].media, &request).unwrap_or(Failed("EIO"));
        self.log.push(Entry::Take(number, disk, request));
        self.log.push(Entry::Deliver(number, answer.clone()));
        self.answer(number, answer);
    }

    fn up(&mut self, number: u64) {
        if let Owner::Child(parent) = self.bios[&number].owner {
            self.log.push(Entry::Up(number, None));
            let bio = self.bios.get_mut(&parent).unwrap();
            bio.left -= 1;
            if bio.left == 0 {
                let (cmd, (first, count)) = (bio.request.cmd, bio.kids);
                let answers = (first..first + count).map(|k| self.bios.remove(&k).unwrap().answer.unwrap()).collect();
                self.answer(parent, joined(cmd, answers));
            }
            return;
        }
        let bio = self.bios.remove(&number).unwrap();
        let reply = if let Owner::Line(line) = bio.owner { Some((line, bio.answer.unwrap())) } else {
            let taste = self.taste.as_mut().unwrap();
            taste.got = bio.answer;
            let cons = taste.cons;
            self.grant(cons, [0; 3]);
            None
        };
        self.log.push(Entry::Up(number, reply));
    }

    // Events, tastes, and what goes

    fn event(&mut self, event: Event) {
        self.log.push(Entry::Event);
        match event {
            Event::New(prov) => {
                let Prov { geom, is_errored, counts, .. } = self.provs[prov];
                if !is_errored && self.geoms[geom].rank < UNTASTED_RANK && counts[1] == 0 {
                    let cons = self.attach(None, prov);
                    self.taste = Some(Taste { prov, cons, asked: 0, at: 0, is_due: false, got: None, links: vec![] });
                }
            }
            Event::Spoil(geoms) => geoms.into_iter().for_each(|geom| self.wither(geom)),
            Event::Orphan(prov) => {
                let above = std::mem::take(&mut self.provs[prov].above);
                for cons in &above {
                    match self.conss[*cons].geom {
                        Some(geom) => self.wither(geom),
                        None => { self.dead.insert(*cons); }
                    }
                }
                self.provs[prov].above = above;
            }
        }
    }

    /// A sector that is back is looked at, a sector that is due is read, the next class is asked, or the taste ends.
    fn judge(&mut self, mut taste: Taste) {
        self.log.push(Entry::Judge);
        if let Some(got) = taste.got.take() {
            self.look(&mut taste, got);
        } else if taste.is_due {
            self.fetch(&mut taste);
        } else if let Some(class) = TASTED.get(taste.asked) {
            taste.asked += 1;
            let Prov { geom, size, sector, over, .. } = self.provs[taste.prov];
            let is_slice = self.geoms[geom].class == Class::Mbr;
            let (at, is_asked) = match class {
                Class::Mbr | Class::Ebr => (0, sector == 512 && is_slice == (*class == Class::Ebr)),
                _ => (size / sector - 1, size > sector),
            };
            taste.at = at;
            if is_asked && over[*class as usize] == 0 {
                self.fetch(&mut taste);
            }
        } else {
            return self.release(taste.cons);
        }
        self.taste = Some(taste);
    }

    /// The sector is read, unless a writer or an exclusive right is in the way.
    fn fetch(&mut self, taste: &mut Taste) {
        taste.is_due = false;
        if self.grant(taste.cons, [1, 0, 0]).0.is_some() {
            self.grant(taste.cons, [0; 3]);
            return;
        }
        let len = self.provs[taste.prov].sector;
        let request = Request { cmd: Cmd::Read, at: taste.at * len, len, bytes: vec![] };
        self.submit(request, taste.prov, Owner::Taste);
    }

    /// What the class makes of a sector: a geom with the providers that it finds, or nothing, or one more read.
    fn look(&mut self, taste: &mut Taste, got: Answer) {
        let Answer::Bytes(bytes) = got else { return };
        let (class, prov) = (TASTED[taste.asked - 1], &self.provs[taste.prov]);
        let (number, sectors) = (|at: usize| number(&bytes, at, 4), prov.size / prov.sector);
        let kind = |k: usize| bytes[446 + 16 * k + 4];
        let entry = |k: usize, from: u64| {
            let (first, count) = (number(454 + 16 * k), number(458 + 16 * k));
            let is_kept = kind(k) != 0 && first != 0 && count != 0 && from + first + count <= sectors;
            is_kept.then_some((from + first, count))
        };
        let slice = |letter: char, k: usize, (first, count): (u64, u64)| {
            new_prov(format!("{}{letter}{}", prov.name, k + 1), 512 * first, 512 * count, 512)
        };
        let is_table = || bytes[510..512] == [0x55, 0xaa];
        let mut found = vec![];
        match class {
            Class::Mbr if is_table() && (0..4).all(|k| kind(k) != 0xee) =>
                found.extend((0..4).filter_map(|k| Some(slice('s', k, entry(k, 0)?)))),
            Class::Ebr if is_table() && matches!(kind(1), 0 | 5 | 15) => {
                taste.links.push((taste.at, entry(0, taste.at)));
                if kind(1) == 0 {
                    let links = taste.links.iter().enumerate();
                    found.extend(links.filter_map(|(k, link)| Some(slice('l', k, link.1?))));
                } else {
                    taste.at = number(470);
                    let is_new = taste.at != 0 && taste.links.iter().all(|link| link.0 != taste.at);
                    taste.is_due = is_new && taste.at < sectors && taste.links.len() < MAX_LINKS;
                }
            }
            Class::Label => if let Some(name) = label_in(&bytes, prov.size) {
                found.push(new_prov(format!("label/{name}"), 0, prov.size - prov.sector, prov.sector));
            },
            _ => {}
        }
        if !found.is_empty() && found.iter().all(|p| p.name.len() <= MAX_NAME && !self.names.contains_key(&p.name)) {
            self.add_geom(class, WINDOW, &prov.name.clone(), found, &[taste.prov]);
        }
    }

    /// The first part that can go of the withering geoms goes, if there is one: of a geom a provider at which nothing
    /// is, else a consumer, else the geom itself.
    fn wash(&mut self) -> bool {
        while let Some(&number) = self.washable.first() {
            let geom = &mut self.geoms[number];
            if let Some(k) = geom.provs.iter().position(|p| self.provs[*p].above.is_empty()) {
                self.provs.0[geom.provs.remove(k)] = None;
            } else if !geom.below.is_empty() {
                let cons = geom.below.remove(0);
                let prov = self.detach(cons);
                let prov = &mut self.provs[prov];
                prov.autos.retain(|geom| *geom != number);
                if prov.above.is_empty() && self.geoms[prov.geom].is_withering {
                    self.washable.insert(prov.geom);
                }
            } else {
                self.washable.remove(&number);
                if !geom.provs.is_empty() {
                    continue;
                }
                self.geoms.0[number] = None;
            }
            self.log.push(Entry::Wash);
            return true;
        }
        false
    }

    /// Makes steps until none but a command is left.
    fn rest(&mut self) {
        loop {
            if let Some(number) = self.up.pop_first() { self.up(number) }
            else if let Some(number) = self.sent.pop_first() { self.take(number) }
            else if let Some(number) = self.down.pop_first() { self.start(number) }
            else if let Some(taste) = self.taste.take() { self.judge(taste) }
            else if let Some(event) = self.events.pop_front() { self.event(event) }
            else if let Some(cons) = self.dead.pop_first() { self.log.push(Entry::Reap); self.release(cons) }
            else if !self.wash() { return }
        }
    }

    // Commands

    fn open(&mut self, handle: (usize, &'a str), prov: &str, counts: Counts) -> Outcome {
        refuse_if(self.handles.contains_key(&handle), "EEXIST")?;
        let cons = self.attach(None, *self.names.get(prov).ok_or("ENOENT")?);
        let (refused, risen) = self.grant(cons, counts);
        if let Some(error) = refused {
            self.grant(cons, [0; 3]);
            self.detach(cons);
            return Err(error);
        }
        for prov in risen {
            let is_spoiled = |geom: &&usize| self.geoms[**geom].counts[1] == 0;
            self.events.push_back(Event::Spoil(self.provs[prov].autos.iter().filter(is_spoiled).copied().collect()));
        }
        self.handles.insert(handle, cons);
        DONE
    }

    fn close(&mut self, handle: (usize, &'a str)) -> Outcome {
        let cons = self.handles.remove(&handle).ok_or("EBADF")?;
        if self.conss.0[cons].is_some() {
            self.release(cons);
        }
        DONE
    }

    fn request(&mut self, line: usize, handle: (usize, &'a str), request: Request) -> Outcome {
        let cons = self.handles.get(&handle).ok_or("EBADF")?;
        let Cons { prov, counts, .. } = *self.conss.0[*cons].as_ref().ok_or("ENXIO")?;
        let (Request { cmd, at, len, .. }, Prov { size, sector, .. }) = (&request, &self.provs[prov]);
        refuse_if(counts[(*cmd != Cmd::Read) as usize] == 0, "EPERM")?;
        if *cmd != Cmd::Flush {
            refuse_if(at % sector != 0 || len % sector != 0 || *len == 0 || *len > MAX_REQUEST, "EINVAL")?;
            refuse_if(at > size || *len > size - at, "EIO")?;
        }
        self.submit(request, prov, Owner::Line(line));
        Ok(None)
    }

    fn make(&mut self, class: Class, kind: Kind, name: &str, prov: Prov, on: &[usize]) -> Outcome {
        refuse_if(self.rank_over(on) > MAX_RANK, "EDEEP")?;
        self.add_geom(class, kind, name, vec![prov], on);
        DONE
    }

    fn nop(&mut self, on: &str, base: u64, size: u64, fail: u64) -> Outcome {
        let (name, on) = (format!("{on}.nop"), *self.names.get(on).ok_or("ENOENT")?);
        let Prov { size: all, sector, .. } = self.provs[on];
        refuse_if(self.names.contains_key(&name), "EEXIST")?;
        refuse_if(size == 0 || base % sector != 0 || size % sector != 0, "EINVAL")?;
        refuse_if(base > all || size > all - base || name.len() > MAX_NAME, "EINVAL")?;
        let prov = new_prov(name.clone(), base, size, sector);
        self.make(Class::Nop, Kind::Window { fail, started: 0 }, &name, prov, &[on])
    }

    /// A concat, or a stripe if there is a strip size.
    fn join(&mut self, name: &str, strip: Option<u64>, on: &[&str]) -> Outcome {
        let prov = format!("{}/{name}", if strip.is_some() { "stripe" } else { "concat" });
        refuse_if(self.names.contains_key(&prov), "EEXIST")?;
        let on: Option<Vec<usize>> = on.iter().map(|name| self.names.get(*name).copied()).collect();
        let on = on.ok_or("ENOENT")?;
        let (sector, sizes) = (self.provs[on[0]].sector, on.iter().map(|p| self.provs[*p].size));
        let size = match strip {
            Some(strip) => (sizes.min().unwrap() / strip * strip).saturating_mul(on.len() as u64),
            None => sizes.fold(0, u64::saturating_add),
        };
        refuse_if(strip.is_some_and(|strip| strip % sector != 0 || strip > MAX_REQUEST), "EINVAL")?;
        refuse_if(on.iter().any(|p| self.provs[*p].sector != sector), "EINVAL")?;
        refuse_if(size == 0 || size > MAX_MEDIA, "EINVAL")?;
        let (class, kind) = strip.map_or((Class::Concat, Kind::Concat), |strip| (Class::Stripe, Kind::Stripe(strip)));
        self.make(class, kind, name, new_prov(prov, 0, size, sector), &on)
    }

    fn insert(&mut self, name: &str) -> Outcome {
        let disk = self.disks.iter().position(|disk| disk.name == name).ok_or("ENOENT")?;
        refuse_if(self.disks[disk].geom.is_some(), "EBUSY")?;
        refuse_if(self.names.contains_key(name), "EEXIST")?;
        self.stand(disk);
        DONE
    }

    fn pull(&mut self, name: &str) -> Outcome {
        let disk = self.disks.iter_mut().find(|disk| disk.name == name).ok_or("ENOENT")?;
        let geom = disk.geom.take().ok_or("ENXIO")?;
        self.wither(geom);
        DONE
    }

    /// A geom is found by its provider, or by the one on which a taste made it.
    fn destroy(&mut self, class: &str, name: &str) -> Outcome {
        let is_of_class = |geom: &&usize| CLASSES[self.geoms[**geom].class as usize].eq_ignore_ascii_case(class);
        let prov = |name: &str| self.names.get(name).map(|p| &self.provs[*p]);
        let found = match class {
            "concat" | "stripe" => prov(&format!("{class}/{name}")).map(|p| &p.geom).filter(is_of_class),
            "nop" => prov(name).map(|p| &p.geom).filter(is_of_class),
            _ => prov(name).and_then(|p| p.autos.iter().find(is_of_class)),
        };
        let geom = *found.ok_or("ENOENT")?;
        refuse_if(self.geoms[geom].counts != [0; 3], "EBUSY")?;
        self.wither(geom);
        DONE
    }

    /// A label in the last sector of the provider, which in its second version says the size of the provider.
    fn label(&mut self, line: usize, handle: (usize, &'a str), name: &str, is_second: bool) -> Outcome {
        let cons = self.handles.get(&handle).ok_or("EBADF")?;
        let Prov { size, sector, .. } = self.provs[self.conss.0[*cons].as_ref().ok_or("ENXIO")?.prov];
        let mut bytes = vec![0; sector as usize];
        bytes[..12].copy_from_slice(b"RGEOM::LABEL");
        bytes[16] = 1 + is_second as u8;
        bytes[20..20 + name.len()].copy_from_slice(name.as_bytes());
        bytes[36..44].copy_from_slice(&(if is_second { size } else { 0 }).to_le_bytes());
        self.request(line, handle, Request { cmd: Cmd::Write, at: size - sector, len: sector, bytes })
    }

    fn command(&mut self, line: usize, actor: usize, words: &[&'a str]) {
        let number = |k: usize| words[k].parse::<u64>().unwrap();
        let handle = || (actor, words[1]);
        let ask = |cmd, at, len, bytes| Request { cmd, at, len, bytes };
        let outcome = match words[0] {
            "open" => self.open(handle(), words[2], [1, 3, 5].map(|k| (words[3].as_bytes()[k] - b'0') as i64)),
            "close" => self.close(handle()),
            "read" => self.request(line, handle(), ask(Cmd::Read, number(2), number(3), vec![])),
            "delete" => self.request(line, handle(), ask(Cmd::Delete, number(2), number(3), vec![])),
            "flush" => self.request(line, handle(), ask(Cmd::Flush, 0, 0, vec![])),
            "write" => {
                let mut bytes = vec![];
                for (byte, times) in words[3..].iter().map(|run| run.split_once('*').unwrap()) {
                    let end = bytes.len() + times.parse::<usize>().unwrap();
                    bytes.resize(end, u8::from_str_radix(byte, 16).unwrap());
                }
                self.request(line, handle(), ask(Cmd::Write, number(2), bytes.len() as u64, bytes))
            }
            "label" | "relabel" => self.label(line, handle(), words[2], words[0] == "relabel"),
            "nop" => self.nop(words[1], number(2), number(3), number(4)),
            "concat" => self.join(words[1], None, &words[2..]),
            "stripe" => self.join(words[1], Some(number(2)), &words[3..]),
            "insert" => self.insert(words[1]),
            "pull" => self.pull(words[1]),
            "destroy" => self.destroy(words[1], words[2]),
            "mesh" => Ok(Some(Answer::Mesh(listing(self)))),
            _ => DONE,
        };
        let answer = outcome.unwrap_or_else(|error| Some(Failed(error)));
        self.log.push(Entry::Go(actor, answer.map(|answer| (line, answer))));
    }
}

fn new_prov(name: String, base: u64, size: u64, sector: u64) -> Prov {
    Prov { name, base, size, sector, ..Default::default() }
}

fn joined(cmd: Cmd, answers: Vec<Answer>) -> Answer {
    let mut all = vec![];
    for answer in answers {
        match answer {
            Failed(error) => return Failed(error),
            Answer::Bytes(bytes) => all.extend_from_slice(&bytes),
            _ => {}
        }
    }
    if cmd == Cmd::Read { Answer::Bytes(Rc::new(all)) } else { Answer::Ok }
}

fn serve(media: &mut Media, request: &Request) -> std::io::Result<Answer> {
    let (from, to) = (request.at as usize, (request.at + request.len) as usize);
    let mut room = vec![0; request.len as usize];
    match (media, request.cmd) {
        (Media::Ram(held), Cmd::Read) => room.copy_from_slice(&held[from..to]),
        (Media::Ram(held), Cmd::Write) => held[from..to].copy_from_slice(&request.bytes),
        (Media::Ram(held), Cmd::Delete) => held[from..to].fill(0),
        (Media::Ram(_), Cmd::Flush) => {}
        (Media::Image(file), Cmd::Read) => file.read_exact_at(&mut room, request.at)?,
        (Media::Image(file), Cmd::Write) => file.write_all_at(&request.bytes, request.at)?,
        (Media::Image(file), Cmd::Delete) => file.write_all_at(&room, request.at)?,
        (Media::Image(file), Cmd::Flush) => file.sync_data()?,
    }
    Ok(if request.cmd == Cmd::Read { Answer::Bytes(Rc::new(room)) } else { Answer::Ok })
}

/// The number of so many bytes at a place.
fn number(bytes: &[u8], at: usize, len: usize) -> u64 {
    bytes[at..at + len].iter().rev().fold(0, |all, byte| all << 8 | *byte as u64)
}

/// The name in a label for a provider of this size.
fn label_in(bytes: &[u8], size: u64) -> Option<String> {
    let name = bytes[20..36].split(|byte| *byte == 0).next()?;
    let is_name = !name.is_empty() && name.iter().all(|byte| byte.is_ascii_alphanumeric() || b"_-".contains(byte));
    let is_alone = bytes[20 + name.len()..36].iter().all(|byte| *byte == 0);
    let is_version = number(bytes, 16, 4) == 1 || number(bytes, 16, 4) == 2 && number(bytes, 36, 8) == size;
    let is_label = bytes.starts_with(b"RGEOM::LABEL\0\0\0\0") && is_version && is_name && is_alone;
    is_label.then(|| name.iter().map(|byte| *byte as char).collect())
}

struct Runs<'a>(&'a [u8]);

impl std::fmt::Display for Runs<'_> {
    fn fmt(&self, out: &mut std::fmt::Formatter) -> std::fmt::Result {
        self.0.chunk_by(|a, b| a == b).try_for_each(|run| write!(out, " {:02x}*{}", run[0], run.len()))
    }
}

fn listing(mesh: &Mesh) -> String {
    let mut out = String::new();
    for geom in mesh.geoms.0.iter().flatten() {
        writeln!(out, "geom {} {} rank {}", CLASSES[geom.class as usize], geom.name, geom.rank).unwrap();
        for Prov { name, size, sector, counts: [r, w, e], .. } in geom.provs.iter().map(|p| &mesh.provs[*p]) {
            writeln!(out, "  provider {name} size {size} sector {sector} r{r}w{w}e{e}").unwrap();
        }
        for Cons { prov, counts: [r, w, e], .. } in geom.below.iter().map(|c| &mesh.conss[*c]) {
            writeln!(out, "  consumer {} r{r}w{w}e{e}", mesh.provs[*prov].name).unwrap();
        }
    }
    out
}

fn report(mesh: &Mesh, lines: &[usize]) -> String {
    let replies = mesh.log.iter().filter_map(|entry| match entry {
        Entry::Go(_, Some((line, answer))) | Entry::Up(_, Some((line, answer))) => Some((*line, answer)),
        _ => None,
    });
    let (replies, mut out): (HashMap<usize, &Answer>, _) = (replies.collect(), String::new());
    for line in lines {
        match replies[line] {
            Answer::Ok => writeln!(out, "{line} ok"),
            Failed(error) => writeln!(out, "{line} {error}"),
            Answer::Bytes(bytes) => writeln!(out, "{line} ok{}", Runs(bytes)),
            Answer::Mesh(listing) => write!(out, "{line} ok\n{listing}"),
        }
        .unwrap();
    }
    out + &listing(mesh)
}

/// The script, the sizes of its images, the steps that were made, and what is in front of the report.
fn trace(text: &str, mesh: &Mesh) -> String {
    let mut out = text.trim_end_matches('\n').to_string() + "\n";
    for disk in mesh.disks.iter().filter(|disk| matches!(disk.media, Media::Image(_))) {
        writeln!(out, "% disk {}", disk.size / disk.sector).unwrap();
    }
    for entry in &mesh.log {
        match entry {
            Entry::Go(actor, _) => writeln!(out, "% 0 go {actor}"),
            Entry::Start(bio) => writeln!(out, "% 0 start {bio}"),
            Entry::Take(bio, disk, _) => writeln!(out, "% 0 take {disk} {bio}"),
            Entry::Deliver(bio, Answer::Bytes(bytes)) => writeln!(out, "% 0 deliver {bio} bytes{}", Runs(bytes)),
            Entry::Deliver(bio, Failed(_)) => writeln!(out, "% 0 deliver {bio} failed 0"),
            Entry::Deliver(bio, _) => writeln!(out, "% 0 deliver {bio} done"),
            Entry::Up(bio, _) => writeln!(out, "% 0 up {bio}"),
            Entry::Judge => writeln!(out, "% 0 judge"),
            Entry::Event => writeln!(out, "% 0 event"),
            Entry::Reap => writeln!(out, "% 0 reap"),
            Entry::Wash => writeln!(out, "% 0 wash"),
        }
        .unwrap();
    }
    out + "% report\n"
}

fn disk<'a>(words: &[&'a str]) -> std::io::Result<Disk<'a>> {
    let sector: u64 = words[2].parse().unwrap();
    let (media, size) = if words[0] == "ram" {
        let size = sector * words[3].parse::<u64>().unwrap();
        (Media::Ram(vec![0; size as usize]), size)
    } else {
        let file = OpenOptions::new().read(true).write(true).open(format!("{}.img", words[1]))?;
        let size = file.metadata()?.len();
        (Media::Image(file), size)
    };
    Ok(Disk { name: words[1], media, sector, size, geom: None })
}

fn main() -> std::io::Result<()> {
    let text = std::io::read_to_string(std::io::stdin())?;
    let (mut mesh, mut actors, mut lines) = (Mesh::default(), vec![], vec![]);
    for (k, line) in text.lines().enumerate().filter(|(_, line)| !line.is_empty() && !line.starts_with('#')) {
        let words: Vec<&str> = line.split(' ').collect();
        match words[0] {
            "actor" => actors.push(words[1]),
            "ram" | "disk" => {
                mesh.disks.push(disk(&words)?);
                if words.last() != Some(&"later") {
                    mesh.stand(mesh.disks.len() - 1);
                }
            }
            name => {
                lines.push(k + 1);
                let actor = actors.iter().position(|a| *a == name).unwrap();
                mesh.rest();
                mesh.command(k + 1, actor, &words[1..]);
            }
        }
    }
    mesh.rest();
    for disk in &mesh.disks {
        if let Media::Image(file) = &disk.media {
            file.sync_all()?;
        }
    }
    let mut out = std::io::stdout();
    if std::env::args().nth(1).as_deref() == Some("trace") {
        out.write_all(trace(&text, &mesh).as_bytes())?;
    }
    out.write_all(report(&mesh, &lines).as_bytes())
}
