//! The configuration: what is open, linked, bound, routed and queued.

use crate::Fault;
use crate::text::{Command, Driver, Which, put_hex, put_number, put_words};
use std::collections::{BTreeMap, BTreeSet, VecDeque};

const MAX_DRIVERS: usize = 64;
const MAX_DESCRIPTORS: usize = 16;
const MAX_LINKS: usize = 1024;
const END: u32 = u32::MAX;

/// A stream by its index over all drivers; its write side is place 2 * stream, its read side the next one.
type Stream = usize;

struct Message<'a> {
    serial: u32,
    addr: u32,
    hex: &'a [u8],
}

#[derive(Default)]
struct Queue<'a> {
    messages: VecDeque<Message<'a>>,
    bytes: usize,
    full: bool,
}

#[derive(Clone, Copy)]
struct Link {
    id: u32,
    ctl: Stream,
    lower: Stream,
    persistent: bool,
}

pub struct Config<'a> {
    drivers: &'a [Driver<'a>],
    /// The first stream of each driver, and one more.
    first: Vec<Stream>,
    driver_of: Vec<usize>,
    /// How many descriptors name the stream.
    opens: Vec<u32>,
    /// The id of the link above the stream.
    above: Vec<Option<u32>>,
    addr: Vec<Option<u32>>,
    queues: Vec<Queue<'a>>,
    /// The places that have messages.
    busy: BTreeSet<usize>,
    fds: Vec<[Option<Stream>; MAX_DESCRIPTORS]>,
    links: BTreeMap<u32, Link>,
    binds: BTreeMap<(usize, u32), Stream>,
    routes: BTreeMap<(usize, u32), u32>,
    next_id: u32,
    next_serial: u32,
}

type Refusal = &'static [u8];

impl<'a> Config<'a> {
    pub fn new(drivers: &'a [Driver<'a>]) -> Result<Config<'a>, Fault> {
        for (i, d) in drivers.iter().enumerate() {
            let why = if d.minors < 1 || d.minors > 64 {
                "minors"
            } else if d.high > 4096 || d.low >= d.high {
                "marks"
            } else if d.max < 1 || d.max > 1024 {
                "max"
            } else if drivers[..i].iter().any(|e| e.name == d.name) {
                "same name"
            } else {
                continue;
            };
            return Err(Fault::Refused { driver: i, why });
        }
        debug_assert!(drivers.len() <= MAX_DRIVERS);
        let mut first = vec![0];
        let mut driver_of = Vec::new();
        for (i, d) in drivers.iter().enumerate() {
            driver_of.resize(driver_of.len() + d.minors as usize, i);
            first.push(driver_of.len());
        }
        let streams = driver_of.len();
        Ok(Config {
            drivers,
            first,
            driver_of,
            opens: vec![0; streams],
            above: vec![None; streams],
            addr: vec![None; streams],
            queues: (0..2 * streams).map(|_| Queue::default()).collect(),
            busy: BTreeSet::new(),
            fds: vec![[None; MAX_DESCRIPTORS]; 64],
            links: BTreeMap::new(),
            binds: BTreeMap::new(),
            routes: BTreeMap::new(),
            next_id: 1,
            next_serial: 1,
        })
    }

    /// Performs the command and writes its reply.
    pub fn step(&mut self, process: u32, command: &Command<'a>, out: &mut Vec<u8>) {
        if let Err(refusal) = self.perform(process as usize, command, out) {
            out.extend_from_slice(refusal);
        }
    }

    fn perform(&mut self, p: usize, command: &Command<'a>, out: &mut Vec<u8>) -> Result<(), Refusal> {
        match *command {
            Command::Clone(name) => {
                let driver = self.driver(name)?;
                let minors = self.first[driver]..self.first[driver + 1];
                let stream = minors.into_iter().find(|s| !self.exists(*s)).ok_or(b"ENXIO minor".as_slice())?;
                self.open(p, stream, out)
            }
            Command::Open(name, minor) => {
                let driver = self.driver(name)?;
                if minor >= self.drivers[driver].minors {
                    return Err(b"ENXIO minor");
                }
                let stream = self.first[driver] + minor as usize;
                refuse(b"EINVAL below", self.above[stream].is_some())?;
                self.open(p, stream, out)
            }
            Command::Dup(fd) => {
                let stream = self.stream(p, fd)?;
                self.open(p, stream, out)
            }
            Command::Close(fd) => {
                let stream = self.stream(p, fd)?;
                self.fds[p][fd as usize] = None;
                self.opens[stream] -= 1;
                self.done(Vec::new(), out)
            }
            Command::Exit => {
                for fd in 0..MAX_DESCRIPTORS {
                    if let Some(stream) = self.fds[p][fd].take() {
                        self.opens[stream] -= 1;
                    }
                }
                self.done(Vec::new(), out)
            }
            Command::Link { fd, arg, persistent } => self.link(p, fd, arg, persistent, out),
            Command::Unlink { fd, which, persistent } => {
                let stream = self.mux(p, fd)?;
                let driver = self.driver_of[stream];
                let mine = |l: &Link| {
                    l.persistent == persistent
                        && if persistent { self.driver_of[l.ctl] == driver } else { l.ctl == stream }
                };
                let ids: Vec<u32> = match which {
                    Which::All => self.links.values().filter(|l| mine(l)).map(|l| l.id).collect(),
                    Which::Id(id) => {
                        refuse(b"EINVAL id", !self.links.get(&id).is_some_and(mine))?;
                        vec![id]
                    }
                };
                let mut dropped = Vec::new();
                for id in ids {
                    self.remove_link(id, &mut dropped);
                }
                self.done(dropped, out)
            }
            Command::Bind(fd, addr) => {
                let stream = self.mux(p, fd)?;
                let key = (self.driver_of[stream], addr);
                refuse(b"EADDRINUSE", self.addr[stream].is_some() || self.binds.contains_key(&key))?;
                self.binds.insert(key, stream);
                self.addr[stream] = Some(addr);
                self.done(Vec::new(), out)
            }
            Command::Unbind(fd) => {
                let stream = self.mux(p, fd)?;
                refuse(b"EINVAL unbound", self.addr[stream].is_none())?;
                self.unbind(stream);
                self.done(Vec::new(), out)
            }
            Command::Route { fd, addr, id } => {
                let driver = self.driver_of[self.mux(p, fd)?];
                let is_own = |l: &Link| self.driver_of[l.ctl] == driver;
                refuse(b"EINVAL id", !self.links.get(&id).is_some_and(is_own))?;
                self.routes.insert((driver, addr), id);
                self.done(Vec::new(), out)
            }
            Command::Unroute(fd, addr) => {
                let driver = self.driver_of[self.mux(p, fd)?];
                refuse(b"EINVAL unrouted", self.routes.remove(&(driver, addr)).is_none())?;
                self.done(Vec::new(), out)
            }
            Command::Write { fd, addr, hex } => {
                let stream = self.free(p, fd)?;
                self.take_in(2 * stream, addr, hex, out)
            }
            Command::Read(fd) => {
                let stream = self.free(p, fd)?;
                self.deliver(2 * stream + 1, out)
            }
            Command::Flush { fd, read, write } => {
                let stream = self.free(p, fd)?;
                let mut dropped = Vec::new();
                if write {
                    self.empty(2 * stream, &mut dropped);
                }
                if read {
                    self.empty(2 * stream + 1, &mut dropped);
                }
                self.done(dropped, out)
            }
            Command::Inject { driver, minor, addr, hex } => {
                let stream = self.leaf(driver, minor)?;
                self.take_in(2 * stream + 1, addr, hex, out)
            }
            Command::Transmit(driver, minor) => {
                let stream = self.leaf(driver, minor)?;
                self.deliver(2 * stream, out)
            }
        }
    }

    // ---- what the words of a command name

    fn driver(&self, name: &[u8]) -> Result<usize, Refusal> {
        self.drivers.iter().position(|d| d.name == name).ok_or(b"ENXIO driver")
    }

    fn stream(&self, p: usize, fd: u32) -> Result<Stream, Refusal> {
        self.fds[p].get(fd as usize).copied().flatten().ok_or(b"EBADF fd")
    }

    fn free(&self, p: usize, fd: u32) -> Result<Stream, Refusal> {
        let stream = self.stream(p, fd)?;
        refuse(b"EINVAL below", self.above[stream].is_some())?;
        Ok(stream)
    }

    fn mux(&self, p: usize, fd: u32) -> Result<Stream, Refusal> {
        let stream = self.free(p, fd)?;
        refuse(b"EINVAL notmux", !self.drivers[self.driver_of[stream]].is_mux)?;
        Ok(stream)
    }

    fn leaf(&self, name: &[u8], minor: u32) -> Result<Stream, Refusal> {
        let driver = self.driver(name)?;
        refuse(b"ENXIO driver", self.drivers[driver].is_mux)?;
        let stream = self.first[driver] + minor.min(64) as usize;
        refuse(b"ENXIO minor", minor >= self.drivers[driver].minors || !self.exists(stream))?;
        Ok(stream)
    }

    fn exists(&self, stream: Stream) -> bool {
        self.opens[stream] > 0
            || self.above[stream].is_some_and(|id| {
                let link = &self.links[&id];
                link.persistent || self.exists(link.ctl)
            })
    }

    // ---- streams and links

    fn open(&mut self, p: usize, stream: Stream, out: &mut Vec<u8>) -> Result<(), Refusal> {
        let fd = self.fds[p].iter().position(|s| s.is_none()).ok_or(b"EMFILE".as_slice())?;
        self.fds[p][fd] = Some(stream);
        self.opens[stream] += 1;
        put_words(out, b"fd", &[fd as u32, self.minor(stream)]);
        Ok(())
    }

    fn link(&mut self, p: usize, fd: u32, arg: u32, persistent: bool, out: &mut Vec<u8>) -> Result<(), Refusal> {
        let (ctl, lower) = (self.stream(p, fd)?, self.stream(p, arg)?);
        let (upper_driver, lower_driver) = (self.driver_of[ctl], self.driver_of[lower]);
        refuse(b"EINVAL below", self.above[ctl].is_some())?;
        refuse(b"EINVAL notmux", !self.drivers[upper_driver].is_mux)?;
        refuse(b"EINVAL already", self.above[lower].is_some())?;
        refuse(b"EINVAL cycle", lower_driver == upper_driver || self.reaches(lower_driver, upper_driver))?;
        refuse(b"EAGAIN links", self.links.len() == MAX_LINKS || self.next_id == END)?;
        let id = self.next_id;
        self.next_id += 1;
        self.links.insert(id, Link { id, ctl, lower, persistent });
        self.above[lower] = Some(id);
        put_words(out, b"id", &[id]);
        self.settle();
        Ok(())
    }

    fn reaches(&self, from: usize, to: usize) -> bool {
        let mut seen = [false; MAX_DRIVERS];
        let mut left = vec![from];
        while let Some(driver) = left.pop() {
            for link in self.links.values().filter(|l| self.driver_of[l.ctl] == driver) {
                let next = self.driver_of[link.lower];
                if next == to {
                    return true;
                }
                if !std::mem::replace(&mut seen[next], true) {
                    left.push(next);
                }
            }
        }
        false
    }

    fn remove_link(&mut self, id: u32, dropped: &mut Vec<u32>) {
        if let Some(link) = self.links.remove(&id) {
            self.above[link.lower] = None;
            self.routes.retain(|_, other| *other != id);
            self.empty(2 * link.lower + 1, dropped);
        }
    }

    fn unbind(&mut self, stream: Stream) {
        if let Some(addr) = self.addr[stream].take() {
            self.binds.remove(&(self.driver_of[stream], addr));
        }
    }

    /// Removes what has no stream any more, settles, and names what was dropped.
    fn done(&mut self, mut dropped: Vec<u32>, out: &mut Vec<u8>) -> Result<(), Refusal> {
        loop {
            let orphan = self.links.values().find(|l| !l.persistent && !self.exists(l.ctl));
            match orphan.map(|l| l.id) {
                Some(id) => self.remove_link(id, &mut dropped),
                None => break,
            }
        }
        let places: Vec<usize> = self.busy.iter().copied().filter(|p| !self.exists(p / 2)).collect();
        for place in places {
            self.empty(place, &mut dropped);
        }
        let streams: Vec<Stream> = self.binds.values().copied().filter(|s| !self.exists(*s)).collect();
        for stream in streams {
            self.unbind(stream);
        }
        dropped.sort_unstable();
        put_words(out, b"done", &dropped);
        self.settle();
        Ok(())
    }

    // ---- messages

    fn take_in(&mut self, place: usize, addr: u32, hex: &'a [u8], out: &mut Vec<u8>) -> Result<(), Refusal> {
        let size = hex.len() / 2;
        let max = self.drivers[self.driver_of[place / 2]].max as usize;
        refuse(b"ERANGE", size == 0 || size > max)?;
        refuse(b"EAGAIN full", self.queues[place].full || self.next_serial == END)?;
        let serial = self.next_serial;
        self.next_serial += 1;
        self.arrive(place, Message { serial, addr, hex });
        put_words(out, b"took", &[serial]);
        self.settle();
        Ok(())
    }

    fn deliver(&mut self, place: usize, out: &mut Vec<u8>) -> Result<(), Refusal> {
        let message = self.leave(place).ok_or(b"EAGAIN empty".as_slice())?;
        put_words(out, b"got", &[message.serial, message.addr]);
        put_hex(out, message.hex);
        self.settle();
        Ok(())
    }

    fn arrive(&mut self, place: usize, message: Message<'a>) {
        let high = self.drivers[self.driver_of[place / 2]].high as usize;
        let queue = &mut self.queues[place];
        queue.bytes += message.hex.len() / 2;
        queue.full |= queue.bytes >= high;
        queue.messages.push_back(message);
        self.busy.insert(place);
    }

    fn leave(&mut self, place: usize) -> Option<Message<'a>> {
        let low = self.drivers[self.driver_of[place / 2]].low as usize;
        let queue = &mut self.queues[place];
        let message = queue.messages.pop_front()?;
        queue.bytes -= message.hex.len() / 2;
        queue.full &= queue.bytes > low;
        if queue.messages.is_empty() {
            self.busy.remove(&place);
        }
        Some(message)
    }

    fn empty(&mut self, place: usize, dropped: &mut Vec<u32>) {
        let queue = std::mem::take(&mut self.queues[place]);
        dropped.extend(queue.messages.iter().map(|m| m.serial));
        self.busy.remove(&place);
    }

    fn next_place(&self, place: usize) -> Option<usize> {
        let stream = place / 2;
        let addr = self.queues[place].messages.front()?.addr;
        if place % 2 == 0 {
            let id = self.routes.get(&(self.driver_of[stream], addr))?;
            return Some(2 * self.links[id].lower);
        }
        let link = &self.links[&self.above[stream]?];
        let upper = self.binds.get(&(self.driver_of[link.ctl], addr))?;
        Some(2 * upper + 1)
    }

    fn settle(&mut self) {
        loop {
            let movable = self.busy.iter().find_map(|place| {
                let next = self.next_place(*place)?;
                (!self.queues[next].full).then_some((*place, next))
            });
            let Some((from, to)) = movable else {
                return;
            };
            if let Some(message) = self.leave(from) {
                self.arrive(to, message);
            }
        }
    }

    // ---- the view

    fn minor(&self, stream: Stream) -> u32 {
        (stream - self.first[self.driver_of[stream]]) as u32
    }

    /// The driver and the minor of a stream, each behind a space.
    fn put_stream(&self, out: &mut Vec<u8>, stream: Stream) {
        out.push(b' ');
        out.extend_from_slice(self.drivers[self.driver_of[stream]].name);
        put_words(out, b"", &[self.minor(stream)]);
    }

    fn put_place(&self, out: &mut Vec<u8>, place: usize) {
        self.put_stream(out, place / 2);
        out.extend_from_slice(if place % 2 == 0 { b" w" } else { b" r" });
    }

    fn put_driver(&self, out: &mut Vec<u8>, word: &[u8], driver: usize) {
        out.extend_from_slice(word);
        out.push(b' ');
        out.extend_from_slice(self.drivers[driver].name);
    }

    pub fn put_view(&self, out: &mut Vec<u8>) {
        out.extend_from_slice(b"config\nnext ");
        put_number(out, self.next_id);
        put_words(out, b"", &[self.next_serial]);
        out.push(b'\n');
        for (p, fds) in self.fds.iter().enumerate() {
            for (fd, stream) in fds.iter().enumerate() {
                if let Some(stream) = stream {
                    put_words(out, b"fd", &[p as u32, fd as u32]);
                    self.put_stream(out, *stream);
                    out.push(b'\n');
                }
            }
        }
        for link in self.links.values() {
            put_words(out, b"link", &[link.id]);
            self.put_stream(out, link.ctl);
            self.put_stream(out, link.lower);
            out.extend_from_slice(if link.persistent { b" plink\n" } else { b" link\n" });
        }
        for ((driver, addr), stream) in &self.binds {
            self.put_driver(out, b"bind", *driver);
            put_words(out, b"", &[*addr, self.minor(*stream)]);
            out.push(b'\n');
        }
        for ((driver, addr), id) in &self.routes {
            self.put_driver(out, b"route", *driver);
            put_words(out, b"", &[*addr, *id]);
            out.push(b'\n');
        }
        for place in &self.busy {
            for message in &self.queues[*place].messages {
                out.extend_from_slice(b"msg");
                self.put_place(out, *place);
                put_words(out, b"", &[message.serial, message.addr]);
                put_hex(out, message.hex);
                out.push(b'\n');
            }
        }
        for place in 0..self.queues.len() {
            if self.queues[place].full {
                out.extend_from_slice(b"full");
                self.put_place(out, place);
                out.push(b'\n');
            }
        }
    }
}

fn refuse(refusal: Refusal, test: bool) -> Result<(), Refusal> {
    if test { Err(refusal) } else { Ok(()) }
}
