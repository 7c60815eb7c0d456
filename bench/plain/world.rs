//! Replays a script of events (docs/SCRIPTS.md) by the protocol (docs/PROTOCOL.md), in plain Rust, and prints what `nowsim` prints. It
//! was written for `bench/world` alone, to be timed beside that one. Nothing is proved of it.
//!
//! It has less to do than that one. The program of the job is that of examples/fib.ck, as Rust functions: no text of a program is read
//! and no tree evaluated. Packets are kept as typed values and never become bytes; rosters of one version are shared. Want of memory
//! ends it. It reads no `cut`, since the scripts of the benchmark have none.
//!
//! Usage: world SCRIPT INPUT
use std::cmp::Ordering;
use std::collections::{BTreeMap, HashMap, HashSet};
use std::rc::Rc;
use std::{env, fs, process};

/// The clearinghouse of any epoch; that of one has the epoch added.
const HOUSE: u64 = 1 << 63;
/// How long a member may be silent.
const SILENCE: u64 = 500;
const MOST_MEMBERS: usize = 4_096;
const MOST_STEPS: usize = 1_024;
const MOST_BYTES: usize = 1_048_576;
/// How many values are saved, and of places of how many steps.
const MOST_SAVED: usize = 64;
const MOST_SAVED_STEPS: usize = 23;

#[derive(Clone, Copy, PartialEq, Eq, PartialOrd, Ord, Hash)]
struct GrantId {
    minter: u64,
    number: u64,
}

#[derive(Clone, Copy)]
enum Outcome {
    Value(i64),
    TooDeep,
}

// The program.

#[derive(Clone, Copy)]
enum Thread {
    Main,
    Sum,
}

enum Turn {
    Send(i64),
    /// A successor with a hole for each kid, and the kids' numbers.
    Join(Thread, [(Thread, i64); 2]),
}

fn arity(thread: Thread) -> usize {
    match thread {
        Thread::Main => 1,
        Thread::Sum => 2,
    }
}

fn body(thread: Thread, numbers: &[i64]) -> Turn {
    match (thread, numbers) {
        (Thread::Main, &[n]) if n < 2 => Turn::Send(n),
        (Thread::Main, &[n]) => Turn::Join(Thread::Sum, [(Thread::Main, n - 1), (Thread::Main, n - 2)]),
        (Thread::Sum, &[x, y]) => Turn::Send(x.wrapping_add(y)),
        _ => unreachable!("a frame has as many slots as its thread takes numbers"),
    }
}

// Frames and subcomputations.

/// The steps from the root, 0 to a successor and from 1 on to the kid of a hole.
type Place = Vec<u8>;

fn child(place: &Place, step: u8) -> Place {
    let mut steps = Vec::with_capacity(place.len() + 1);
    steps.extend_from_slice(place);
    steps.push(step);
    steps
}

#[derive(Clone)]
struct Task {
    place: Place,
    thread: Thread,
    numbers: Vec<i64>,
}

#[derive(Clone, Copy, PartialEq, Eq, Hash)]
enum Return {
    Whole,
    Slot(u32, usize),
}

#[derive(Clone)]
struct Frame {
    place: Place,
    thread: Thread,
    slots: Vec<Option<i64>>,
    returns: Return,
}

impl Frame {
    fn of(task: &Task, returns: Return) -> Frame {
        Frame {
            place: task.place.clone(),
            thread: task.thread,
            slots: task.numbers.iter().map(|n| Some(*n)).collect(),
            returns,
        }
    }

    /// The numbers in its slots, if it is ready.
    fn numbers(&self) -> Option<Vec<i64>> {
        self.slots.iter().copied().collect()
    }

    fn is_ready(&self) -> bool {
        self.slots.iter().all(Option::is_some)
    }

    fn level(&self) -> usize {
        self.place.iter().filter(|step| **step != 0).count()
    }
}

/// A frame that was stolen.
#[derive(Clone)]
struct Record {
    holder: u64,
    frame: u32,
    task: Task,
    returns: Return,
}

/// A value that was put into a slot.
#[allow(dead_code)]
struct Fill {
    grant: GrantId,
    frame: u32,
    slot: usize,
    place: Place,
    value: i64,
}

/// The ready frames of a node by level, in each the newest last.
#[derive(Default)]
struct Ready {
    levels: Vec<Vec<(GrantId, u32)>>,
}

impl Ready {
    fn post(&mut self, grant: GrantId, number: u32, level: usize) {
        if self.levels.len() <= level {
            self.levels.resize_with(level + 1, Vec::new);
        }
        self.levels[level].push((grant, number));
    }

    fn take(&mut self, grant: GrantId, number: u32, level: usize) {
        let posts = &mut self.levels[level];
        if let Some(at) = posts.iter().rposition(|post| *post == (grant, number)) {
            posts.remove(at);
        }
    }

    fn take_all(&mut self, grant: GrantId) {
        for posts in &mut self.levels {
            posts.retain(|post| post.0 != grant);
        }
    }

    /// What a thief gets.
    fn shallowest(&self) -> Option<(GrantId, u32)> {
        self.levels.iter().find_map(|posts| posts.last()).copied()
    }
}

#[derive(Clone)]
struct Sub {
    grant: GrantId,
    hop: u32,
    parent: u64,
    outcome: Option<Outcome>,
    task: Task,
    next: u32,
    frames: BTreeMap<u32, Frame>,
    records: BTreeMap<GrantId, Record>,
    saved: Saved,
}

impl Sub {
    /// What a granted task begins.
    fn new(grant: GrantId, task: &Task, saved: &Saved) -> Sub {
        Sub {
            grant,
            hop: 0,
            parent: grant.minter,
            outcome: None,
            task: task.clone(),
            next: 1,
            frames: BTreeMap::from([(0, Frame::of(task, Return::Whole))]),
            records: BTreeMap::new(),
            saved: saved.clone(),
        }
    }

    /// A value comes to where it is awaited.
    fn arrive(&mut self, to: Return, value: i64, ready: &mut Ready, out: &mut Out) {
        match to {
            Return::Whole => self.finish(Outcome::Value(value), ready, out),
            Return::Slot(number, slot) => {
                let Some(frame) = self.frames.get_mut(&number) else {
                    return;
                };
                frame.slots[slot] = Some(value);
                out.fills.push(Fill { grant: self.grant, frame: number, slot, place: frame.place.clone(), value });
                if frame.is_ready() {
                    ready.post(self.grant, number, frame.level());
                }
            }
        }
    }

    fn finish(&mut self, outcome: Outcome, ready: &mut Ready, out: &mut Out) {
        self.outcome = Some(outcome);
        self.frames.clear();
        ready.take_all(self.grant);
        out.stop_all(&self.records);
        self.records.clear();
    }

    /// A ready frame takes its turn.
    fn turn(&mut self, number: u32, numbers: &[i64], ready: &mut Ready, out: &mut Out) {
        let frame = self.frames.remove(&number).expect("it is ready");
        ready.take(self.grant, number, frame.level());
        match body(frame.thread, numbers) {
            Turn::Send(value) => self.arrive(frame.returns, value, ready, out),
            Turn::Join(..) if frame.place.len() >= MOST_STEPS => self.finish(Outcome::TooDeep, ready, out),
            Turn::Join(thread, kids) => self.join(frame, thread, &kids, ready),
        }
    }

    /// A successor and kids stand in the place of a frame.
    fn join(&mut self, frame: Frame, thread: Thread, kids: &[(Thread, i64)], ready: &mut Ready) {
        let successor = self.next;
        self.next += 1;
        let mut slots = vec![None; kids.len()];
        for (slot, (thread, n)) in kids.iter().enumerate() {
            let place = child(&frame.place, slot as u8 + 1);
            if let Ok(at) = saved_at(&self.saved, &place) {
                slots[slot] = Some(self.saved[at].1);
                continue;
            }
            let kid = Frame {
                place,
                thread: *thread,
                slots: vec![Some(*n)],
                returns: Return::Slot(successor, slot),
            };
            ready.post(self.grant, self.next, kid.level());
            self.frames.insert(self.next, kid);
            self.next += 1;
        }
        let after =
            Frame { place: child(&frame.place, 0), thread, slots, returns: frame.returns };
        if after.is_ready() {
            ready.post(self.grant, successor, after.level());
        }
        self.frames.insert(successor, after);
    }

    /// Whether all has as many numbers as its thread takes.
    fn fits_program(&self) -> bool {
        let fits = |task: &Task| task.numbers.len() == arity(task.thread);
        fits(&self.task)
            && self.frames.values().all(|it| it.slots.len() == arity(it.thread))
            && self.records.values().all(|it| fits(&it.task))
    }

    /// Whether each number stands once, and each value that is awaited is owed once, and no other.
    fn is_linked(&self) -> bool {
        let mut awaited = HashSet::from([Return::Whole]);
        for (number, frame) in &self.frames {
            let empty = frame.slots.iter().enumerate().filter(|(_, it)| it.is_none());
            awaited.extend(empty.map(|(slot, _)| Return::Slot(*number, slot)));
        }
        let mut numbers: HashSet<u32> = self.frames.keys().copied().collect();
        self.frames.values().all(|it| awaited.remove(&it.returns))
            && self.records.values().all(|it| numbers.insert(it.frame) && awaited.remove(&it.returns))
            && awaited.is_empty()
    }

    /// How many bytes its Offer would have.
    fn bytes(&self) -> usize {
        let task = |it: &Task| 4 + it.place.len() + 8 * it.numbers.len();
        let returns = |it: Return| if it == Return::Whole { 1 } else { 6 };
        let slot = |it: &Option<i64>| if it.is_some() { 9 } else { 1 };
        let frame = |it: &Frame| 8 + it.place.len() + it.slots.iter().map(slot).sum::<usize>() + returns(it.returns);
        let progress = if let Some(Outcome::Value(_)) = self.outcome { 9 } else { 1 };
        68 + progress
            + task(&self.task)
            + self.frames.values().map(frame).sum::<usize>()
            + self.records.values().map(|it| 28 + task(&it.task) + returns(it.returns)).sum::<usize>()
    }
}

// Saved values.

/// Values of places, the shorter ones first, and those of one length by their steps.
type Saved = Vec<(Vec<u8>, i64)>;

fn saved_at(saved: &[(Vec<u8>, i64)], place: &[u8]) -> Result<usize, usize> {
    saved.binary_search_by(|it| (it.0.len(), it.0.as_slice()).cmp(&(place.len(), place)))
}

/// The place whose value a task's is, if it is one whose value is saved.
fn saved_place(place: &[u8]) -> Option<&[u8]> {
    let steps = place.iter().rposition(|step| *step != 0)? + 1;
    Some(&place[..steps]).filter(|it| it.len() <= MOST_SAVED_STEPS)
}

/// Those below a place.
fn saved_below(saved: &[(Vec<u8>, i64)], place: &[u8]) -> Saved {
    saved.iter().filter(|it| it.0.len() > place.len() && it.0.starts_with(place)).cloned().collect()
}

// Rosters and packets.

#[derive(Clone, Copy)]
enum Status {
    Live,
    Dead,
    Left(u64),
}

#[derive(Clone, Default)]
struct Roster {
    epoch: u64,
    version: u64,
    /// By rising start word.
    members: Vec<(u64, Status)>,
}

impl Roster {
    fn status(&self, worker: u64) -> Option<Status> {
        let at = self.members.binary_search_by_key(&worker, |it| it.0).ok()?;
        Some(self.members[at].1)
    }

    fn is_live(&self, worker: u64) -> bool {
        matches!(self.status(worker), Some(Status::Live))
    }

    /// Another version, with this said of a worker.
    fn put(&mut self, worker: u64, status: Status) {
        self.version += 1;
        match self.members.binary_search_by_key(&worker, |it| it.0) {
            Ok(at) => self.members[at].1 = status,
            Err(at) => self.members.insert(at, (worker, status)),
        }
    }

    /// Who has a worker's work: itself, the end of a chain of heirs, or nobody.
    fn bearer(&self, worker: u64) -> Option<u64> {
        let mut at = worker;
        for _ in 0..=self.members.len() {
            match self.status(at) {
                None | Some(Status::Live) => return Some(at),
                Some(Status::Dead) => return None,
                Some(Status::Left(heir)) => at = heir,
            }
        }
        None
    }

    /// What a newer roster is to a node that has this one.
    fn news(&self, newer: &Roster, worker: u64) -> News {
        match newer.epoch.cmp(&self.epoch) {
            Ordering::Less => News::Old,
            Ordering::Greater => News::Over,
            Ordering::Equal if newer.version <= self.version => News::Old,
            Ordering::Equal => match newer.status(worker) {
                None => News::Old,
                Some(Status::Live) => News::Newer,
                Some(Status::Dead | Status::Left(_)) => News::Over,
            },
        }
    }
}

/// What a roster is to a node: not newer, newer, or the node's end.
enum News {
    Old,
    Newer,
    Over,
}

#[derive(Clone)]
enum Body {
    Join { from: u64 },
    Roster(Rc<Roster>),
    Steal { from: u64, seq: u64 },
    Grant { seq: u64, grant: GrantId, task: Task, saved: Saved },
    Refuse { seq: u64 },
    Result { from: u64, grant: GrantId, outcome: Outcome },
    ResultAck { grant: GrantId },
    Offer { from: u64, sub: Box<Sub> },
    OfferAck { from: u64, grant: GrantId, hop: u32 },
    Leave { from: u64, heir: u64 },
    Abort { grant: GrantId },
    Beat { from: u64, version: u64 },
    Save { from: u64, place: Vec<u8>, value: i64 },
}

#[derive(Clone)]
struct Packet {
    to: u64,
    body: Body,
}

/// What an event sends, and what it puts into slots.
#[derive(Default)]
struct Out {
    packets: Vec<Packet>,
    fills: Vec<Fill>,
}

impl Out {
    fn send(&mut self, to: u64, body: Body) {
        self.packets.push(Packet { to, body });
    }

    /// The holder of each record is told to stop.
    fn stop_all(&mut self, records: &BTreeMap<GrantId, Record>) {
        for (grant, record) in records {
            self.send(record.holder, Body::Abort { grant: *grant });
        }
    }

    fn result(&mut self, from: u64, sub: &Sub) {
        if let Some(outcome) = sub.outcome {
            let grant = sub.grant;
            self.send(sub.parent, Body::Result { from, grant, outcome });
        }
    }
}

/// The last answer to each thief, and to which of its requests.
#[derive(Default)]
struct Replies {
    last: HashMap<u64, (u64, Packet)>,
}

impl Replies {
    /// Whether a request is newer than the last one. The same again gets the same answer.
    fn is_newer(&self, thief: u64, seq: u64, out: &mut Out) -> bool {
        let Some((last, packet)) = self.last.get(&thief) else {
            return true;
        };
        if seq == *last {
            out.packets.push(packet.clone());
        }
        seq > *last
    }

    fn answer(&mut self, thief: u64, seq: u64, body: Body, out: &mut Out) {
        let packet = Packet { to: thief, body };
        self.last.insert(thief, (seq, packet.clone()));
        out.packets.push(packet);
    }
}

// Nodes.

#[derive(Default)]
enum State {
    #[default]
    Joining,
    Member(Rc<Roster>),
    Leaving(Rc<Roster>, u64),
    Ended,
}

#[derive(Default)]
struct Node {
    word: u64,
    state: State,
    subs: BTreeMap<GrantId, Sub>,
    ready: Ready,
    /// The victim and the number of the request that waits for its answer.
    pending: Option<(u64, u64)>,
    asked: u64,
    minted: u64,
    replies: Replies,
    /// The greatest hop with which each grant was taken.
    seen: HashMap<GrantId, u32>,
    /// Which grant each thief has said that it has, once the node leaves.
    confirmed: HashMap<u64, GrantId>,
}

impl Node {
    fn join(&self, out: &mut Out) {
        out.send(HOUSE, Body::Join { from: self.word });
    }

    fn end(&mut self) {
        *self = Node { word: self.word, state: State::Ended, ..Node::default() };
    }

    fn exec(&mut self, grant: GrantId, number: u64, out: &mut Out) {
        let (State::Member(_), Ok(number)) = (&self.state, u32::try_from(number)) else {
            return;
        };
        let Some(sub) = self.subs.get_mut(&grant) else {
            return;
        };
        let Some(numbers) = sub.frames.get(&number).and_then(Frame::numbers) else {
            return;
        };
        sub.turn(number, &numbers, &mut self.ready, out);
        out.result(self.word, sub);
    }

    /// It asks a worker, or the clearinghouse, for work.
    fn ask(&mut self, worker: Option<u64>, out: &mut Out) {
        let State::Member(roster) = &self.state else {
            return;
        };
        let may_ask = worker.map_or(true, |it| it != self.word && roster.is_live(it));
        if self.pending.is_none() && may_ask {
            let victim = worker.unwrap_or(HOUSE + roster.epoch);
            self.asked += 1;
            self.pending = Some((victim, self.asked));
            out.send(victim, Body::Steal { from: self.word, seq: self.asked });
        }
    }

    fn depart(&mut self, heir: u64, out: &mut Out) {
        let State::Member(roster) = &self.state else {
            return;
        };
        let can_move = |it: &Sub| it.hop < u32::MAX && it.bytes() <= MOST_BYTES;
        if self.pending.is_some() || heir == self.word || !roster.is_live(heir) || !self.subs.values().all(can_move) {
            return;
        }
        let roster = Rc::clone(roster);
        self.offer_all(heir, out);
        self.leave_if_done(&roster, heir, out);
        self.state = State::Leaving(roster, heir);
    }

    fn offer_all(&self, heir: u64, out: &mut Out) {
        for sub in self.subs.values() {
            let sub = Box::new(Sub { hop: sub.hop + 1, saved: Vec::new(), ..sub.clone() });
            out.send(heir, Body::Offer { from: self.word, sub });
        }
    }

    /// The Grants of thieves that haven't said that they have them, with these.
    fn awaited(&self, roster: &Roster) -> Vec<(GrantId, &Packet)> {
        let mut awaited = Vec::new();
        for (thief, (_, packet)) in &self.replies.last {
            if let Body::Grant { grant, .. } = packet.body {
                if roster.is_live(*thief) && self.confirmed.get(thief) != Some(&grant) {
                    awaited.push((grant, packet));
                }
            }
        }
        awaited.sort_by_key(|it| it.0);
        awaited
    }

    fn leave_if_done(&self, roster: &Roster, heir: u64, out: &mut Out) {
        if self.subs.is_empty() && self.awaited(roster).is_empty() {
            out.send(HOUSE + roster.epoch, Body::Leave { from: self.word, heir });
        }
    }

    fn resend(&self, out: &mut Out) {
        let from = self.word;
        match &self.state {
            State::Joining => self.join(out),
            State::Member(roster) => {
                out.send(HOUSE + roster.epoch, Body::Beat { from, version: roster.version });
                if let Some((victim, seq)) = self.pending {
                    out.send(victim, Body::Steal { from, seq });
                }
                for sub in self.subs.values() {
                    out.result(from, sub);
                }
            }
            State::Leaving(roster, heir) => {
                out.send(HOUSE + roster.epoch, Body::Beat { from, version: roster.version });
                self.offer_all(*heir, out);
                out.packets.extend(self.awaited(roster).into_iter().map(|it| it.1.clone()));
                self.leave_if_done(roster, *heir, out);
            }
            State::Ended => {}
        }
    }

    fn on_packet(&mut self, packet: &Packet, out: &mut Out) {
        if packet.to != self.word {
            return;
        }
        match &self.state {
            State::Joining => {
                if let Body::Roster(roster) = &packet.body {
                    match roster.status(self.word) {
                        Some(Status::Live) => self.state = State::Member(Rc::clone(roster)),
                        Some(Status::Dead | Status::Left(_)) => self.end(),
                        None => {}
                    }
                }
            }
            State::Member(roster) => {
                let roster = Rc::clone(roster);
                self.on_member(&packet.body, &roster, out);
            }
            State::Leaving(roster, heir) => {
                let (roster, heir) = (Rc::clone(roster), *heir);
                self.on_leaving(&packet.body, &roster, heir, out);
            }
            State::Ended => {}
        }
    }

    fn on_member(&mut self, body: &Body, roster: &Roster, out: &mut Out) {
        match body {
            Body::Roster(newer) => match roster.news(newer, self.word) {
                News::Old => {}
                News::Over => self.end(),
                News::Newer => {
                    let grants: Vec<GrantId> = self.subs.keys().copied().collect();
                    self.recover(newer, &grants, out);
                    self.pending =
                        self.pending.filter(|(victim, _)| matches!(newer.status(*victim), None | Some(Status::Live)));
                    self.state = State::Member(Rc::clone(newer));
                }
            },
            Body::Steal { from, seq } => {
                let frame = self.ready.shallowest();
                self.on_steal(*from, *seq, frame, roster, out);
            }
            Body::Grant { seq, grant, task, saved } => self.on_grant(*seq, *grant, task, saved, out),
            Body::Refuse { seq } => {
                if self.pending.is_some_and(|it| it.1 == *seq) {
                    self.pending = None;
                }
            }
            Body::Result { from, grant, outcome } => self.on_result(*from, *grant, *outcome, out),
            Body::ResultAck { grant } => {
                if self.subs.get(grant).is_some_and(|it| it.outcome.is_some()) {
                    self.subs.remove(grant);
                }
            }
            Body::Offer { from, sub } => self.on_offer(*from, sub, roster, out),
            Body::Abort { grant } => self.drop_sub(*grant, out),
            _ => {}
        }
    }

    fn on_leaving(&mut self, body: &Body, roster: &Roster, heir: u64, out: &mut Out) {
        match body {
            Body::Roster(newer) => match roster.news(newer, self.word) {
                News::Old => {}
                News::Newer if self.subs.is_empty() || newer.is_live(heir) => {
                    self.state = State::Leaving(Rc::clone(newer), heir);
                }
                News::Newer | News::Over => self.end(),
            },
            Body::Steal { from, seq } => self.on_steal(*from, *seq, None, roster, out),
            Body::Grant { grant, .. } => self.confirm_grant(*grant, out),
            Body::Offer { from, sub } => {
                if self.has_seen(sub) {
                    self.acknowledge(*from, sub, out);
                }
            }
            Body::OfferAck { from, grant, hop } => {
                let is_released = self.subs.get(grant).is_some_and(|it| *hop == it.hop + 1);
                if is_released && *from == heir {
                    self.subs.remove(grant);
                } else if *hop == 0 && self.awaited(roster).iter().any(|it| it.0 == *grant && it.1.to == *from) {
                    self.confirmed.insert(*from, *grant);
                } else {
                    return;
                }
                self.leave_if_done(roster, heir, out);
            }
            _ => {}
        }
    }

    fn on_steal(&mut self, thief: u64, seq: u64, frame: Option<(GrantId, u32)>, roster: &Roster, out: &mut Out) {
        if roster.is_live(thief) && self.replies.is_newer(thief, seq, out) {
            let body = match frame {
                Some((grant, number)) => self.give(thief, seq, grant, number),
                None => Body::Refuse { seq },
            };
            self.replies.answer(thief, seq, body, out);
        }
    }

    /// A ready frame is given away, and a record stands in its place.
    fn give(&mut self, thief: u64, seq: u64, from: GrantId, number: u32) -> Body {
        let sub = self.subs.get_mut(&from).expect("what is ready is held");
        let frame = sub.frames.remove(&number).expect("what is ready is there");
        self.ready.take(from, number, frame.level());
        self.minted += 1;
        let grant = GrantId { minter: self.word, number: self.minted };
        let numbers = frame.numbers().expect("it is ready");
        let saved = saved_below(&sub.saved, &frame.place);
        let task = Task { place: frame.place, thread: frame.thread, numbers };
        let record = Record { holder: thief, frame: number, task: task.clone(), returns: frame.returns };
        sub.records.insert(grant, record);
        Body::Grant { seq, grant, task, saved }
    }

    fn on_grant(&mut self, seq: u64, grant: GrantId, task: &Task, saved: &Saved, out: &mut Out) {
        if self.pending == Some((grant.minter, seq))
            && !self.seen.contains_key(&grant)
            && task.numbers.len() == arity(task.thread)
            && saved.iter().all(|it| it.0.len() > task.place.len() && it.0.starts_with(&task.place))
        {
            self.pending = None;
            self.hold(Sub::new(grant, task, saved));
        } else {
            self.confirm_grant(grant, out);
        }
    }

    /// A worker's grant that was taken is confirmed, as hop 0.
    fn confirm_grant(&self, grant: GrantId, out: &mut Out) {
        if grant.minter < HOUSE && self.seen.contains_key(&grant) {
            out.send(grant.minter, Body::OfferAck { from: self.word, grant, hop: 0 });
        }
    }

    fn hold(&mut self, sub: Sub) {
        for (number, frame) in &sub.frames {
            if frame.is_ready() {
                self.ready.post(sub.grant, *number, frame.level());
            }
        }
        self.seen.insert(sub.grant, sub.hop);
        self.subs.insert(sub.grant, sub);
    }

    fn on_result(&mut self, from: u64, grant: GrantId, outcome: Outcome, out: &mut Out) {
        out.send(from, Body::ResultAck { grant });
        let State::Member(roster) = &self.state else {
            return;
        };
        let Some(sub) = self.subs.values_mut().find(|it| it.records.contains_key(&grant)) else {
            return;
        };
        let record = sub.records.remove(&grant).expect("it was found");
        match outcome {
            Outcome::Value(value) => sub.arrive(record.returns, value, &mut self.ready, out),
            Outcome::TooDeep => sub.finish(outcome, &mut self.ready, out),
        }
        out.result(self.word, sub);
        if let (Outcome::Value(value), Some(place)) = (outcome, saved_place(&record.task.place)) {
            out.send(HOUSE + roster.epoch, Body::Save { from: self.word, place: place.to_vec(), value });
        }
    }

    fn has_seen(&self, sub: &Sub) -> bool {
        self.seen.get(&sub.grant).is_some_and(|hop| sub.hop <= *hop)
    }

    fn acknowledge(&self, to: u64, sub: &Sub, out: &mut Out) {
        out.send(to, Body::OfferAck { from: self.word, grant: sub.grant, hop: sub.hop });
    }

    fn on_offer(&mut self, from: u64, sub: &Sub, roster: &Roster, out: &mut Out) {
        if self.has_seen(sub) {
            self.acknowledge(from, sub, out);
        } else if !self.subs.contains_key(&sub.grant) && self.fits(sub) {
            self.acknowledge(from, sub, out);
            self.hold(sub.clone());
            self.recover(roster, &[sub.grant], out);
        }
    }

    fn fits(&self, sub: &Sub) -> bool {
        let is_foreign =
            |grant: &GrantId| grant.minter != self.word && !self.subs.values().any(|it| it.records.contains_key(grant));
        sub.fits_program() && (sub.outcome.is_some() || sub.is_linked() && sub.records.keys().all(is_foreign))
    }

    fn drop_sub(&mut self, grant: GrantId, out: &mut Out) {
        if let Some(sub) = self.subs.remove(&grant) {
            out.stop_all(&sub.records);
            self.ready.take_all(grant);
        }
    }

    /// Hosts and holders that are gone by a roster: what nobody has is dropped or done again, what an heir has is the heir's.
    fn recover(&mut self, roster: &Roster, grants: &[GrantId], out: &mut Out) {
        let mut records = Vec::new();
        for grant in grants {
            let sub = self.subs.get_mut(grant).expect("it is held");
            match roster.bearer(sub.parent) {
                Some(host) => {
                    sub.parent = host;
                    records.extend(sub.records.keys().map(|given| (*given, *grant)));
                }
                None => self.drop_sub(*grant, out),
            }
        }
        records.sort();
        for (given, grant) in records {
            let sub = self.subs.get_mut(&grant).expect("it was left");
            let record = sub.records.get_mut(&given).expect("it is open");
            match roster.bearer(record.holder) {
                Some(holder) => record.holder = holder,
                None => {
                    out.send(record.holder, Body::Abort { grant: given });
                    let record = sub.records.remove(&given).expect("it is open");
                    let frame = Frame::of(&record.task, record.returns);
                    self.ready.post(grant, record.frame, frame.level());
                    sub.frames.insert(record.frame, frame);
                }
            }
        }
    }
}

// The clearinghouse.

/// A checkpoint: two large slots, each with a gate, the sequence, the epoch, the outcome and the saved values; docs/FORMATS.md.
struct Disk {
    bytes: Vec<u8>,
}

const SLOT: usize = 2_112;

impl Disk {
    fn new() -> Disk {
        let mut disk = Disk { bytes: vec![0; 136 + 2 * SLOT] };
        disk.bytes[..8].copy_from_slice(b"CNOWCKP\x01");
        disk.commit(0, 0, None, &[]);
        disk
    }

    /// The gate is closed, the body is written, the gate is opened.
    fn commit(&mut self, sequence: u64, epoch: u64, outcome: Option<Outcome>, saved: &[(Vec<u8>, i64)]) {
        let (tag, value) = match outcome {
            None => (0, 0),
            Some(Outcome::Value(value)) => (1, value),
            Some(Outcome::TooDeep) => (2, 0),
        };
        let slot = &mut self.bytes[136 + SLOT * (sequence % 2) as usize..][..SLOT];
        slot[0] = 0;
        slot[1..9].copy_from_slice(&sequence.to_be_bytes());
        slot[9..11].copy_from_slice(&2_101_u16.to_be_bytes());
        slot[11..19].copy_from_slice(&1_u64.to_be_bytes());
        slot[19..27].copy_from_slice(&epoch.to_be_bytes());
        slot[27] = tag;
        slot[28..36].copy_from_slice(&value.to_be_bytes());
        slot[36..].fill(0);
        slot[36] = saved.len() as u8;
        for (entry, (place, value)) in slot[64..].chunks_exact_mut(32).zip(saved) {
            entry[0] = place.len() as u8;
            entry[1..1 + place.len()].copy_from_slice(place);
            entry[24..].copy_from_slice(&value.to_be_bytes());
        }
        slot[0] = 0xA5;
    }

    /// The sequence, the epoch, the outcome and the saved values of the newer slot.
    fn read(&self) -> (u64, u64, Option<Outcome>, Saved) {
        let number = |at: &[u8]| u64::from_be_bytes(at[..8].try_into().expect("eight bytes"));
        let slots = self.bytes[136..].chunks_exact(SLOT).filter(|slot| slot[0] == 0xA5);
        let slot = slots.max_by_key(|slot| number(&slot[1..])).expect("one is open");
        let outcome = match slot[27] {
            0 => None,
            1 => Some(Outcome::Value(number(&slot[28..]) as i64)),
            _ => Some(Outcome::TooDeep),
        };
        let entries = slot[64..].chunks_exact(32).take(usize::from(slot[36]));
        let saved = entries.map(|it| (it[1..1 + usize::from(it[0])].to_vec(), number(&it[24..]) as i64)).collect();
        (number(&slot[1..]), number(&slot[19..]), outcome, saved)
    }
}

#[derive(Default)]
struct House {
    roster: Rc<Roster>,
    /// When each member was last heard.
    heard: HashMap<u64, u64>,
    moment: u64,
    /// The root's grant while it is out, and its holder.
    root: Option<(GrantId, u64)>,
    minted: u64,
    replies: Replies,
    outcome: Option<Outcome>,
    saved: Saved,
    sequence: u64,
}

impl House {
    fn open(disk: &mut Disk) -> House {
        let (sequence, epoch, outcome, saved) = disk.read();
        disk.commit(sequence + 1, epoch + 1, outcome, &saved);
        let roster = Roster { epoch: epoch + 1, version: 1, members: Vec::new() };
        House { roster: Rc::new(roster), outcome, saved, sequence: sequence + 1, ..House::default() }
    }

    fn name(&self) -> u64 {
        HOUSE + self.roster.epoch
    }

    fn tell(&self, worker: u64, out: &mut Out) {
        out.send(worker, Body::Roster(Rc::clone(&self.roster)));
    }

    fn on_packet(&mut self, packet: &Packet, input: i64, disk: &mut Disk, out: &mut Out) {
        let is_own = packet.to == self.name();
        match packet.body {
            Body::Save { from, ref place, value } if is_own => self.on_save(from, place, value, disk),
            Body::Join { from } => self.on_join(from, out),
            Body::Steal { from, seq } if is_own => self.on_steal(from, seq, input, out),
            Body::Result { from, grant, outcome } if is_own => {
                if self.root.is_some_and(|it| it.0 == grant) {
                    self.sequence += 1;
                    disk.commit(self.sequence, self.roster.epoch, Some(outcome), &self.saved);
                    self.outcome = Some(outcome);
                    self.root = None;
                }
                out.send(from, Body::ResultAck { grant });
            }
            Body::Leave { from, heir } if is_own => self.on_leave(from, heir, out),
            Body::Beat { from, version } if is_own => {
                if let Some(status) = self.roster.status(from) {
                    self.hear(from, status);
                    if version < self.roster.version {
                        self.tell(from, out);
                    }
                }
            }
            Body::Beat { from, .. } => self.tell(from, out),
            _ => {}
        }
    }

    fn hear(&mut self, worker: u64, status: Status) {
        if let Status::Live = status {
            self.heard.insert(worker, self.moment);
        }
    }

    fn on_join(&mut self, worker: u64, out: &mut Out) {
        match self.roster.status(worker) {
            Some(status) => self.hear(worker, status),
            None if self.roster.members.len() < MOST_MEMBERS => {
                Rc::make_mut(&mut self.roster).put(worker, Status::Live);
                self.hear(worker, Status::Live);
            }
            None => return,
        }
        self.tell(worker, out);
    }

    fn on_steal(&mut self, thief: u64, seq: u64, input: i64, out: &mut Out) {
        if !self.roster.is_live(thief) || !self.replies.is_newer(thief, seq, out) {
            return;
        }
        let body = if self.root.is_none() && self.outcome.is_none() {
            self.minted += 1;
            let grant = GrantId { minter: self.name(), number: self.minted };
            self.root = Some((grant, thief));
            let task = Task { place: Vec::new(), thread: Thread::Main, numbers: vec![input] };
            Body::Grant { seq, grant, task, saved: self.saved.clone() }
        } else {
            Body::Refuse { seq }
        };
        self.replies.answer(thief, seq, body, out);
    }

    fn on_save(&mut self, from: u64, place: &[u8], value: i64, disk: &mut Disk) {
        if !self.roster.is_live(from) || self.outcome.is_some() || saved_place(place) != Some(place) {
            return;
        }
        if let Err(at) = saved_at(&self.saved, place) {
            if at < MOST_SAVED {
                self.saved.insert(at, (place.to_vec(), value));
                self.saved.truncate(MOST_SAVED);
                self.sequence += 1;
                disk.commit(self.sequence, self.roster.epoch, self.outcome, &self.saved);
            }
        }
    }

    fn on_leave(&mut self, worker: u64, heir: u64, out: &mut Out) {
        match self.roster.status(worker) {
            Some(Status::Live) => {
                let heir = self.roster.bearer(heir).filter(|it| *it != worker && self.roster.is_live(*it));
                let status = heir.map_or(Status::Dead, Status::Left);
                Rc::make_mut(&mut self.roster).put(worker, status);
                self.tell(worker, out);
                self.settle_root(out);
            }
            Some(Status::Dead | Status::Left(_)) => self.tell(worker, out),
            None => {}
        }
    }

    /// Whoever has the work of the root's holder holds it.
    fn settle_root(&mut self, out: &mut Out) {
        if let Some((grant, holder)) = self.root {
            self.root = self.roster.bearer(holder).map(|it| (grant, it));
            if self.root.is_none() {
                out.send(holder, Body::Abort { grant });
            }
        }
    }

    fn tick(&mut self, now: u64, out: &mut Out) {
        if now <= self.moment {
            return;
        }
        self.moment = now;
        let is_lost = |it: &(u64, Status)| matches!(it.1, Status::Live) && now - self.heard[&it.0] > SILENCE;
        if self.roster.members.iter().any(is_lost) {
            let roster = Rc::make_mut(&mut self.roster);
            roster.version += 1;
            for it in roster.members.iter_mut().filter(|it| is_lost(it)) {
                it.1 = Status::Dead;
            }
            self.settle_root(out);
        }
    }
}

// Scripts, and the world.

enum Event {
    Start(usize, u64),
    Exec(usize, GrantId, u64),
    Deliver(usize, usize),
    Ask(usize, Option<u64>),
    Resend(usize),
    Depart(usize, u64),
    Crash(usize),
    HouseDeliver(usize),
    HouseTick(u64),
    HouseCrash,
    HouseRestart,
}

fn number(word: &str) -> Option<u64> {
    // (parse takes a sign)
    if word.starts_with('+') {
        None
    } else {
        word.parse().ok()
    }
}

fn event(line: &str, places: usize) -> Option<Event> {
    let mut words = line.split(' ');
    let name = words.next()?;
    let mut next = || number(words.next()?);
    let event = match name {
        "house-deliver" => Event::HouseDeliver(next()? as usize),
        "house-tick" => Event::HouseTick(next()?),
        "house-crash" => Event::HouseCrash,
        "house-restart" => Event::HouseRestart,
        _ => {
            let place = usize::try_from(next()?).ok().filter(|it| *it < places)?;
            match name {
                "start" => Event::Start(place, next()?),
                "exec" => {
                    let grant = GrantId { minter: next()?, number: next()? };
                    Event::Exec(place, grant, next()?)
                }
                "deliver" => Event::Deliver(place, next()? as usize),
                "ask" => match words.next()? {
                    "house" => Event::Ask(place, None),
                    word => Event::Ask(place, Some(number(word)?)),
                },
                "resend" => Event::Resend(place),
                "depart" => Event::Depart(place, next()?),
                "crash" => Event::Crash(place),
                _ => return None,
            }
        }
    };
    words.next().is_none().then_some(event)
}

/// The events of a script, or the number of the first line that isn't one's.
fn events(text: &str) -> Result<Vec<Event>, usize> {
    let places = if text.split('\n').next() == Some("# nodes 64") { 64 } else { 16 };
    let mut events = Vec::new();
    for (i, line) in text.split('\n').enumerate() {
        if !line.is_ascii() {
            return Err(i + 1);
        }
        if !line.is_empty() && !line.starts_with('#') {
            events.push(event(line, places).ok_or(i + 1)?);
        }
    }
    Ok(events)
}

struct World {
    input: i64,
    nodes: Vec<Option<Node>>,
    house: Option<House>,
    disk: Disk,
    net: Vec<Packet>,
    used: HashSet<u64>,
    /// What the event sends; and what all have put into slots.
    out: Out,
}

impl World {
    fn new(input: i64) -> World {
        World {
            input,
            nodes: (0..64).map(|_| None).collect(),
            house: None,
            disk: Disk::new(),
            net: Vec::new(),
            used: HashSet::new(),
            out: Out::default(),
        }
    }

    fn start(&mut self, place: usize, word: u64) {
        let is_worker = 0 < word && word < HOUSE;
        if is_worker && self.nodes[place].is_none() && self.used.insert(word) {
            let node = Node { word, ..Node::default() };
            node.join(&mut self.out);
            self.nodes[place] = Some(node);
        }
    }

    fn step(&mut self, event: &Event) {
        match *event {
            Event::Start(place, word) => self.start(place, word),
            Event::Crash(place) => self.nodes[place] = None,
            Event::HouseCrash => self.house = None,
            Event::HouseRestart => {
                if self.house.is_none() {
                    self.house = Some(House::open(&mut self.disk));
                }
            }
            Event::HouseTick(now) => {
                if let Some(house) = &mut self.house {
                    house.tick(now, &mut self.out);
                }
            }
            Event::HouseDeliver(i) => {
                if let (Some(house), Some(packet)) = (&mut self.house, self.net.get(i)) {
                    house.on_packet(packet, self.input, &mut self.disk, &mut self.out);
                }
            }
            Event::Deliver(place, i) => {
                if let (Some(node), Some(packet)) = (&mut self.nodes[place], self.net.get(i)) {
                    node.on_packet(packet, &mut self.out);
                }
            }
            Event::Exec(place, grant, frame) => self.at(place, |node, out| node.exec(grant, frame, out)),
            Event::Ask(place, victim) => self.at(place, |node, out| node.ask(victim, out)),
            Event::Resend(place) => self.at(place, |node, out| node.resend(out)),
            Event::Depart(place, heir) => self.at(place, |node, out| node.depart(heir, out)),
        }
        self.net.append(&mut self.out.packets);
    }

    fn at(&mut self, place: usize, call: impl FnOnce(&mut Node, &mut Out)) {
        if let Some(node) = &mut self.nodes[place] {
            call(node, &mut self.out);
        }
    }
}

fn main() {
    let words: Vec<String> = env::args().collect();
    let [_, script, input] = &words[..] else {
        fail("usage", 2);
    };
    let Ok(input) = input.parse() else {
        fail("usage", 2);
    };
    let Ok(text) = fs::read(script) else {
        fail("file", 4);
    };
    let events = match events(&String::from_utf8_lossy(&text)) {
        Ok(events) => events,
        Err(line) => fail(&format!("line {line}"), 1),
    };
    let mut world = World::new(input);
    for event in &events {
        world.step(event);
    }
    println!("events {}", events.len());
    println!("packets {}", world.net.len());
    println!("fills {}", world.out.fills.len());
    match world.house.and_then(|it| it.outcome) {
        Some(Outcome::Value(value)) => println!("outcome value {value}"),
        Some(Outcome::TooDeep) => println!("outcome too deep"),
        None => println!("outcome none"),
    }
}

fn fail(why: &str, status: i32) -> ! {
    eprintln!("{why}");
    process::exit(status)
}
