//! A tenant: peers, routes and rates, what is held and owed, and the journal of the running period.

use std::sync::Arc;

use crate::packet::{self, Prepare};
use crate::table::{SEED, Table, hash_bytes, hash_word};
use crate::words::Target;

pub const MAX_MONEY: u64 = 1 << 62;
pub const MAX_TERM: u64 = 1_000_000_000_000;
const MAX_PEERS: usize = 256;
const MAX_PEER_NUMBERS: u32 = 65_535;
const MAX_ROUTES: usize = 4096;
const MAX_RATES: usize = 4096;
const MAX_HOLDS: usize = 1024;
const MAX_PERIOD: u64 = u32::MAX as u64;
const PACKET: u64 = 1000;
/// The SHA-256 of 32 zero bytes (RFC 0031).
const CONFIG_CONDITION: [u8; 32] = [
    0x66, 0x68, 0x7a, 0xad, 0xf8, 0x62, 0xbd, 0x77, 0x6c, 0x8f, 0xc1, 0x8b, 0x8e, 0x9f, 0x8e, 0x20, 0x08, 0x97, 0x14, 0x85,
    0x6e, 0xe2, 0x33, 0xb3, 0x90, 0x2a, 0x59, 0x1d, 0x0d, 0x5f, 0x29, 0x25,
];

/// Up to N bytes.
#[derive(Clone, Copy)]
pub struct Text<const N: usize> {
    pub bytes: [u8; N],
    pub len: u8,
}

impl<const N: usize> Text<N> {
    pub fn new(text: &[u8]) -> Text<N> {
        let mut bytes = [0; N];
        bytes[..text.len()].copy_from_slice(text);
        Text { bytes, len: text.len() as u8 }
    }

    #[inline(always)]
    pub fn text(&self) -> &[u8] {
        &self.bytes[..usize::from(self.len)]
    }
}

/// What is agreed with a peer.
pub struct Terms {
    pub name: Text<32>,
    pub token: Text<64>,
    pub target: Arc<Target>,
    pub child: bool,
    pub scale: u8,
    pub asset: Text<16>,
    pub limits: Limits,
    pub burst: u64,
    pub per_second: u64,
    pub balance: i64,
}

pub struct Limits {
    pub cap: u64,
    pub ceiling: u64,
    pub credit: u64,
}

pub struct Peer {
    pub terms: Terms,
    pub balance: i128,
    pub held_in: i128,
    pub held_out: i128,
    level_clock: u64,
    level: u64,
    name_hash: u64,
    token_hash: u64,
    routes: u32,
    holds: u32,
}

impl Peer {
    /// What the bucket has at that clock, in thousandths of a packet.
    #[inline(always)]
    fn level_at(&self, clock: u64) -> u64 {
        let gained = self.terms.per_second.saturating_mul(clock - self.level_clock);
        self.level.saturating_add(gained).min(PACKET * self.terms.burst)
    }
}

struct Route {
    prefix: Box<[u8]>,
    hash: u64,
    to: u16,
    fee: u64,
}

#[derive(Clone, Copy)]
struct Rate {
    from: u16,
    to: u16,
    num: u64,
    den: u64,
}

impl Rate {
    fn hash(&self) -> u64 {
        pair_hash(self.from.into(), self.to.into())
    }
}

#[inline(always)]
fn pair_hash(from: usize, to: usize) -> u64 {
    hash_word(SEED, (from << 16 | to) as u64)
}

#[derive(Clone, Copy)]
pub struct Hold {
    pub number: u64,
    from: u16,
    to: u16,
    marked: bool,
    amount: u64,
    price: u64,
    expiry: u64,
    condition: [u8; 32],
}

/// An entry of the journal, in a fixed size; destinations are in a text of their own.
#[allow(dead_code)]
struct Record {
    now: u64,
    what: What,
}

#[allow(dead_code)]
enum What {
    Prepare { from: u16, amount: u64, expiry: u64, condition: [u8; 32], destination: (u32, u16), verdict: Verdict },
    Answer { hold: u64, fulfillment: Option<[u8; 32]>, verdict: Verdict },
    Tick { count: u32 },
    Change { verb: u8, peer: u16 },
    Roll,
}

#[derive(Clone, Copy)]
pub enum Code {
    BadRequest,
    Unreachable,
    InvalidAmount,
    WrongCondition,
    AmountTooLarge,
    PeerUnreachable,
    Busy,
    InsufficientLiquidity,
    RateLimited,
    TimedOut,
    InsufficientSource,
    InsufficientTimeout,
}

impl Code {
    pub fn words(self) -> (&'static [u8; 3], &'static [u8]) {
        match self {
            Code::BadRequest => (b"F00", b"bad request"),
            Code::Unreachable => (b"F02", b"unreachable"),
            Code::InvalidAmount => (b"F03", b"invalid amount"),
            Code::WrongCondition => (b"F05", b"wrong condition"),
            Code::AmountTooLarge => (b"F08", b"amount too large"),
            Code::PeerUnreachable => (b"T01", b"peer unreachable"),
            Code::Busy => (b"T03", b"connector busy"),
            Code::InsufficientLiquidity => (b"T04", b"insufficient liquidity"),
            Code::RateLimited => (b"T05", b"rate limited"),
            Code::TimedOut => (b"R00", b"transfer timed out"),
            Code::InsufficientSource => (b"R01", b"insufficient source amount"),
            Code::InsufficientTimeout => (b"R02", b"insufficient timeout"),
        }
    }
}

#[derive(Clone, Copy)]
pub enum Verdict {
    Stranger,
    Full,
    Refuse(Code),
    RefuseOver(u64, u64),
    Configure(u16),
    Forward { to: u16, slot: u16, hold: u64, price: u64, expiry: u64 },
    Relay,
}

/// Why a command is refused.
#[derive(Clone, Copy)]
pub enum Refusal {
    Full,
    InUse,
    Present,
    Absent,
    Limit,
}

impl Refusal {
    pub fn word(self) -> &'static [u8] {
        match self {
            Refusal::Full => b"full",
            Refusal::InUse => b"in-use",
            Refusal::Present => b"present",
            Refusal::Absent => b"absent",
            Refusal::Limit => b"limit",
        }
    }
}

pub struct Book {
    pub name: Text<32>,
    pub address: Box<[u8]>,
    pub admin: Text<64>,
    pub calls: u64,
    places: usize,
    margin: u64,
    longest: u64,
    clock: u64,
    period: u64,
    next_hold: u64,
    next_peer: u32,
    peers: Vec<Peer>,
    free_peers: Vec<u16>,
    /// The peers in the order of their addition.
    order: Vec<u16>,
    tokens: Table,
    names: Table,
    routes: Vec<Route>,
    prefixes: Table,
    /// The route of the empty prefix.
    default: Option<(u16, u64)>,
    /// How many routes have so many segments.
    by_segments: Vec<u16>,
    most_segments: usize,
    rates: Vec<Rate>,
    pairs: Table,
    holds: Vec<Hold>,
    free_holds: Vec<u16>,
    open: usize,
    /// No hold whose amounts are held expires before.
    earliest: u64,
    records: Vec<Record>,
    destinations: Vec<u8>,
}

pub fn hash_text(text: &[u8]) -> u64 {
    hash_bytes(SEED, text)
}

/// The hash of a prefix by its segments, and how many they are.
fn hash_prefix(prefix: &[u8]) -> (u64, usize) {
    let parts = prefix.split(|b| *b == b'.');
    parts.fold((SEED, 0), |(hash, n), part| (hash_bytes(hash, part), n + 1))
}

impl Book {
    pub fn new(name: Text<32>, address: &[u8], admin: Text<64>, places: usize, margin: u64, longest: u64, clock: u64) -> Book {
        let mut records = Vec::new();
        records.reserve_exact(places + 1);
        Book {
            name,
            address: address.into(),
            admin,
            calls: 0,
            places,
            margin,
            longest,
            clock,
            period: 0,
            next_hold: 0,
            next_peer: 0,
            peers: Vec::new(),
            free_peers: Vec::new(),
            order: Vec::new(),
            tokens: Table::new(),
            names: Table::new(),
            routes: Vec::new(),
            prefixes: Table::new(),
            default: None,
            by_segments: vec![0; 513],
            most_segments: 0,
            rates: Vec::new(),
            pairs: Table::new(),
            holds: Vec::new(),
            free_holds: Vec::new(),
            open: 0,
            earliest: u64::MAX,
            records,
            destinations: Vec::new(),
        }
    }

    // ---- who is there

    pub fn peer(&self, slot: u16) -> &Peer {
        &self.peers[usize::from(slot)]
    }

    pub fn peers(&self) -> impl Iterator<Item = &Peer> {
        self.order.iter().map(|slot| self.peer(*slot))
    }

    #[inline(always)]
    fn with_token(&self, hash: u64, token: &[u8]) -> Option<usize> {
        self.tokens.find(hash, |slot| self.peers[slot].terms.token.text() == token)
    }

    fn named(&self, name: &[u8]) -> Option<usize> {
        self.names.find(hash_text(name), |slot| self.peers[slot].terms.name.text() == name)
    }

    pub fn add_peer(&mut self, terms: Terms, clock: u64) -> Result<(), Refusal> {
        let (name_hash, token_hash) = (hash_text(terms.name.text()), hash_text(terms.token.text()));
        if self.named(terms.name.text()).is_some() || self.with_token(token_hash, terms.token.text()).is_some() {
            return Err(Refusal::Present);
        }
        if self.order.len() >= MAX_PEERS || self.next_peer >= MAX_PEER_NUMBERS {
            return Err(Refusal::Limit);
        }
        let peer = Peer {
            balance: terms.balance.into(),
            held_in: 0,
            held_out: 0,
            level_clock: clock,
            level: PACKET * terms.burst,
            name_hash,
            token_hash,
            routes: 0,
            holds: 0,
            terms,
        };
        let slot = match self.free_peers.pop() {
            Some(slot) => {
                self.peers[usize::from(slot)] = peer;
                slot
            }
            None => {
                self.peers.push(peer);
                self.peers.len() as u16 - 1
            }
        };
        self.next_peer += 1;
        self.order.push(slot);
        self.names.insert(name_hash, slot.into(), |p| self.peers[p].name_hash);
        self.tokens.insert(token_hash, slot.into(), |p| self.peers[p].token_hash);
        Ok(())
    }

    fn remove_peer(&mut self, slot: usize) -> Result<(), Refusal> {
        let peer = &self.peers[slot];
        if peer.routes > 0 || peer.holds > 0 || peer.balance != 0 {
            return Err(Refusal::InUse);
        }
        self.names.remove(peer.name_hash, slot, |p| self.peers[p].name_hash);
        self.tokens.remove(peer.token_hash, slot, |p| self.peers[p].token_hash);
        self.order.retain(|other| usize::from(*other) != slot);
        self.free_peers.push(slot as u16);
        self.rates.retain(|rate| usize::from(rate.from) != slot && usize::from(rate.to) != slot);
        self.pairs.clear();
        for (i, rate) in self.rates.iter().enumerate() {
            self.pairs.insert(rate.hash(), i, |r| self.rates[r].hash());
        }
        Ok(())
    }

    // ---- routes and rates

    fn find_route(&self, hash: u64, prefix: &[u8]) -> Option<usize> {
        self.prefixes.find(hash, |r| *self.routes[r].prefix == *prefix)
    }

    pub fn add_route(&mut self, prefix: &[u8], peer: &[u8], fee: u64) -> Result<(), Refusal> {
        let to = self.named(peer).ok_or(Refusal::Absent)?;
        let (hash, segments) = hash_prefix(prefix);
        let is_there = if prefix.is_empty() { self.default.is_some() } else { self.find_route(hash, prefix).is_some() };
        if is_there {
            return Err(Refusal::Present);
        }
        if self.routes.len() + usize::from(self.default.is_some()) == MAX_ROUTES {
            return Err(Refusal::Limit);
        }
        self.peers[to].routes += 1;
        if prefix.is_empty() {
            self.default = Some((to as u16, fee));
            return Ok(());
        }
        self.routes.push(Route { prefix: prefix.into(), hash, to: to as u16, fee });
        self.prefixes.insert(hash, self.routes.len() - 1, |r| self.routes[r].hash);
        self.by_segments[segments] += 1;
        self.most_segments = self.most_segments.max(segments);
        Ok(())
    }

    fn remove_route(&mut self, prefix: &[u8]) -> Result<(), Refusal> {
        if prefix.is_empty() {
            let (to, _) = self.default.take().ok_or(Refusal::Absent)?;
            self.peers[usize::from(to)].routes -= 1;
            return Ok(());
        }
        let (hash, segments) = hash_prefix(prefix);
        let found = self.find_route(hash, prefix).ok_or(Refusal::Absent)?;
        self.peers[usize::from(self.routes[found].to)].routes -= 1;
        self.prefixes.remove(hash, found, |r| self.routes[r].hash);
        let last = self.routes.len() - 1;
        if found != last {
            // The last route takes the place.
            let moved = self.routes[last].hash;
            self.prefixes.remove(moved, last, |r| self.routes[r].hash);
            self.routes.swap_remove(found);
            self.prefixes.insert(moved, found, |r| self.routes[r].hash);
        } else {
            self.routes.pop();
        }
        self.by_segments[segments] -= 1;
        while self.most_segments > 0 && self.by_segments[self.most_segments] == 0 {
            self.most_segments -= 1;
        }
        Ok(())
    }

    /// The peer and the fee of the route with the most segments that begin the destination.
    #[inline(always)]
    fn best_route(&self, destination: &[u8]) -> Option<(u16, u64)> {
        let mut best = self.default;
        let (mut hash, mut begin) = (SEED, 0);
        for count in 1..=self.most_segments {
            let end = unsafe { crate::simd::dot(destination.as_ptr(), begin, destination.len()) };
            hash = hash_bytes(hash, &destination[begin..end]);
            if self.by_segments[count] > 0 {
                if let Some(found) = self.find_route(hash, &destination[..end]) {
                    best = Some((self.routes[found].to, self.routes[found].fee));
                }
            }
            if end == destination.len() {
                break;
            }
            begin = end + 1;
        }
        best
    }

    #[inline(always)]
    fn rate(&self, from: usize, to: usize) -> Option<usize> {
        let is_it = |r: usize| usize::from(self.rates[r].from) == from && usize::from(self.rates[r].to) == to;
        self.pairs.find(pair_hash(from, to), is_it)
    }

    pub fn set_rate(&mut self, from: &[u8], to: &[u8], num: u64, den: u64) -> Result<(), Refusal> {
        let from = self.named(from).ok_or(Refusal::Absent)?;
        let to = self.named(to).ok_or(Refusal::Absent)?;
        let rate = Rate { from: from as u16, to: to as u16, num, den };
        if let Some(found) = self.rate(from, to) {
            self.rates[found] = rate;
        } else if self.rates.len() >= MAX_RATES {
            return Err(Refusal::Limit);
        } else {
            self.rates.push(rate);
            self.pairs.insert(rate.hash(), self.rates.len() - 1, |r| self.rates[r].hash());
        }
        Ok(())
    }

    // ---- packets

    /// The verdict on a packet that came with that token.
    #[inline(always)]
    pub fn decide(
        &mut self,
        hash: u64,
        token: &[u8],
        p: &Prepare,
        condition: &[u8; 32],
        destination: &[u8],
        now: u64,
    ) -> Verdict {
        let Some(from) = self.with_token(hash, token) else {
            return Verdict::Stranger;
        };
        if self.records.len() + self.open + 2 > self.places {
            return Verdict::Full;
        }
        self.clock = self.clock.max(now);
        let verdict = self.judge(from, p, condition, destination);
        let begin = self.destinations.len() as u32;
        self.destinations.extend_from_slice(destination);
        self.records.push(Record {
            now,
            what: What::Prepare {
                from: from as u16,
                amount: p.amount,
                expiry: p.expiry,
                condition: *condition,
                destination: (begin, destination.len() as u16),
                verdict,
            },
        });
        verdict
    }

    #[inline(always)]
    fn judge(&mut self, from: usize, p: &Prepare, condition: &[u8; 32], destination: &[u8]) -> Verdict {
        let clock = self.clock;
        let sender = &mut self.peers[from];
        let level = sender.level_at(clock);
        if level < PACKET {
            return Verdict::Refuse(Code::RateLimited);
        }
        sender.level = level - PACKET;
        sender.level_clock = clock;
        if p.expiry <= clock {
            return Verdict::Refuse(Code::InsufficientTimeout);
        }
        if packet::is_for_neighbors(destination) {
            if destination != b"peer.config" {
                return Verdict::Refuse(Code::Unreachable);
            }
            return if !sender.terms.child {
                Verdict::Refuse(Code::BadRequest)
            } else if p.amount != 0 {
                Verdict::Refuse(Code::InvalidAmount)
            } else if *condition != CONFIG_CONDITION {
                Verdict::Refuse(Code::WrongCondition)
            } else {
                Verdict::Configure(from as u16)
            };
        }
        if *destination == *self.address {
            return Verdict::Refuse(Code::Unreachable);
        }
        let sender = &self.peers[from];
        let cap = sender.terms.limits.cap;
        if p.amount > cap {
            return Verdict::RefuseOver(p.amount, cap);
        }
        let Some((to, fee)) = self.best_route(destination).filter(|(to, _)| usize::from(*to) != from) else {
            return Verdict::Refuse(Code::Unreachable);
        };
        let Some(rate) = self.rate(from, usize::from(to)) else {
            return Verdict::Refuse(Code::Unreachable);
        };
        let Rate { num, den, .. } = self.rates[rate];
        let price = match p.amount.checked_mul(num) {
            Some(product) => u128::from(product / den),
            None => u128::from(p.amount) * u128::from(num) / u128::from(den),
        };
        if price < u128::from(fee) {
            return Verdict::Refuse(Code::InsufficientSource);
        }
        let price = price - u128::from(fee);
        let receiver = &self.peers[usize::from(to)];
        let most = receiver.terms.limits.cap;
        if price > u128::from(most) {
            let over = u128::from(most) + u128::from(fee) + 1;
            let greatest = (over * u128::from(den) - 1) / u128::from(num);
            return Verdict::RefuseOver(p.amount, greatest.min(cap.into()) as u64);
        }
        let price = price as u64;
        let expiry = p.expiry.saturating_sub(self.margin).min(clock + self.longest);
        if expiry <= clock {
            return Verdict::Refuse(Code::InsufficientTimeout);
        }
        if sender.balance + sender.held_in + i128::from(p.amount) > i128::from(sender.terms.limits.ceiling)
            || receiver.balance - receiver.held_out - i128::from(price) < -i128::from(receiver.terms.limits.credit)
        {
            return Verdict::Refuse(Code::InsufficientLiquidity);
        }
        if self.open >= MAX_HOLDS {
            return Verdict::Refuse(Code::Busy);
        }
        self.hold(from, to, p.amount, price, expiry, condition)
    }

    #[inline(always)]
    fn hold(&mut self, from: usize, to: u16, amount: u64, price: u64, expiry: u64, condition: &[u8; 32]) -> Verdict {
        let number = self.next_hold;
        let hold = Hold { number, from: from as u16, to, marked: false, amount, price, expiry, condition: *condition };
        let slot = match self.free_holds.pop() {
            Some(slot) => {
                self.holds[usize::from(slot)] = hold;
                slot
            }
            None => {
                self.holds.push(hold);
                self.holds.len() as u16 - 1
            }
        };
        self.next_hold += 1;
        self.open += 1;
        self.earliest = self.earliest.min(expiry);
        let sender = &mut self.peers[from];
        sender.held_in += i128::from(amount);
        sender.holds += 1;
        let receiver = &mut self.peers[usize::from(to)];
        receiver.held_out += i128::from(price);
        receiver.holds += 1;
        Verdict::Forward { to, slot, hold: number, price, expiry }
    }

    fn release(&mut self, hold: &Hold) {
        self.peers[usize::from(hold.from)].held_in -= i128::from(hold.amount);
        self.peers[usize::from(hold.to)].held_out -= i128::from(hold.price);
    }

    /// The verdict on the answer to the hold in that slot, which ends it. `digest` tells the SHA-256 of a fulfillment.
    #[inline(always)]
    pub fn answer(&mut self, slot: u16, now: u64, answer: &packet::Answer, digest: impl Fn(&[u8; 32]) -> [u8; 32]) -> Verdict {
        let hold = self.holds[usize::from(slot)];
        self.clock = self.clock.max(now);
        let mut fulfilled = None;
        let verdict = if hold.marked || hold.expiry <= self.clock {
            Verdict::Refuse(Code::TimedOut)
        } else {
            match answer {
                packet::Answer::Fault => Verdict::Refuse(Code::PeerUnreachable),
                packet::Answer::Reject => Verdict::Relay,
                packet::Answer::Fulfill(fulfillment) if digest(fulfillment) == hold.condition => {
                    fulfilled = Some(**fulfillment);
                    Verdict::Relay
                }
                packet::Answer::Fulfill(_) => Verdict::Refuse(Code::WrongCondition),
            }
        };
        if !hold.marked {
            self.release(&hold);
        }
        let (from, to) = (usize::from(hold.from), usize::from(hold.to));
        if fulfilled.is_some() {
            self.peers[from].balance += i128::from(hold.amount);
            self.peers[to].balance -= i128::from(hold.price);
        }
        self.peers[from].holds -= 1;
        self.peers[to].holds -= 1;
        self.free_holds.push(slot);
        self.open -= 1;
        if self.open == 0 {
            // Slots of ended holds are told from open ones by their mark.
            self.earliest = u64::MAX;
        }
        self.holds[usize::from(slot)].marked = true;
        self.records.push(Record { now, what: What::Answer { hold: hold.number, fulfillment: fulfilled, verdict } });
        verdict
    }

    fn has_no_place(&self) -> bool {
        self.records.len() + self.open + 1 > self.places
    }

    /// How many packets a tick found overdue.
    pub fn tick(&mut self, now: u64) -> Result<u32, Refusal> {
        if self.has_no_place() {
            return Err(Refusal::Full);
        }
        self.clock = self.clock.max(now);
        let mut count = 0;
        if self.earliest <= self.clock {
            self.earliest = u64::MAX;
            for i in 0..self.holds.len() {
                let hold = self.holds[i];
                if hold.marked {
                    continue;
                }
                if hold.expiry <= self.clock {
                    self.release(&hold);
                    self.holds[i].marked = true;
                    count += 1;
                } else {
                    self.earliest = self.earliest.min(hold.expiry);
                }
            }
        }
        self.records.push(Record { now, what: What::Tick { count } });
        Ok(count)
    }

    // ---- commands

    /// Gives an order, which changes the book if it is not refused.
    pub fn order(&mut self, order: Order, now: u64) -> Result<(), Refusal> {
        if self.has_no_place() {
            return Err(Refusal::Full);
        }
        let clock = self.clock.max(now);
        let verb = order.verb();
        let peer = self.obey(order, clock)?;
        self.clock = clock;
        self.records.push(Record { now, what: What::Change { verb, peer: peer as u16 } });
        Ok(())
    }

    fn obey(&mut self, order: Order, clock: u64) -> Result<usize, Refusal> {
        match order {
            Order::AddPeer(terms) => self.add_peer(*terms, clock).map(|()| 0),
            Order::RemoveRoute(prefix) => self.remove_route(prefix).map(|()| 0),
            Order::AddRoute(prefix, name, fee) => self.add_route(prefix, name, fee).map(|()| 0),
            Order::SetRate(from, to, num, den) => self.set_rate(from, to, num, den).map(|()| 0),
            Order::RemovePeer(name) => {
                let slot = self.named(name).ok_or(Refusal::Absent)?;
                self.remove_peer(slot).map(|()| slot)
            }
            Order::SetLimits(name, limits) => {
                let slot = self.named(name).ok_or(Refusal::Absent)?;
                self.peers[slot].terms.limits = limits;
                Ok(slot)
            }
            Order::SetBucket(name, burst, per_second) => {
                let slot = self.named(name).ok_or(Refusal::Absent)?;
                let peer = &mut self.peers[slot];
                peer.level = peer.level_at(clock).min(PACKET * burst);
                peer.level_clock = clock;
                peer.terms.burst = burst;
                peer.terms.per_second = per_second;
                Ok(slot)
            }
            Order::SettleIn(name, amount) => {
                let slot = self.named(name).ok_or(Refusal::Absent)?;
                let peer = &mut self.peers[slot];
                if peer.balance - peer.held_out - i128::from(amount) < -i128::from(MAX_MONEY) {
                    return Err(Refusal::Limit);
                }
                peer.balance -= i128::from(amount);
                Ok(slot)
            }
            Order::SettleOut(name, amount) => {
                let slot = self.named(name).ok_or(Refusal::Absent)?;
                let peer = &mut self.peers[slot];
                if peer.balance + peer.held_in + i128::from(amount) > i128::from(MAX_MONEY) {
                    return Err(Refusal::Limit);
                }
                peer.balance += i128::from(amount);
                Ok(slot)
            }
        }
    }

    /// Why a roll is refused, or the number of the period that it ends and how many entries that has.
    pub fn roll(&mut self, now: u64) -> Result<(u64, usize), Refusal> {
        if self.open > 0 {
            return Err(Refusal::InUse);
        }
        if self.period >= MAX_PERIOD {
            return Err(Refusal::Limit);
        }
        self.clock = self.clock.max(now);
        self.records.push(Record { now, what: What::Roll });
        let ended = (self.period, self.records.len());
        self.period += 1;
        // A bucket goes on as it is: it would hold the same from a level at this clock. A service would file the records.
        self.records.clear();
        self.destinations.clear();
        self.holds.clear();
        self.free_holds.clear();
        Ok(ended)
    }
}

pub enum Order<'a> {
    AddPeer(Box<Terms>),
    RemovePeer(&'a [u8]),
    SetLimits(&'a [u8], Limits),
    SetBucket(&'a [u8], u64, u64),
    AddRoute(&'a [u8], &'a [u8], u64),
    RemoveRoute(&'a [u8]),
    SetRate(&'a [u8], &'a [u8], u64, u64),
    SettleIn(&'a [u8], u64),
    SettleOut(&'a [u8], u64),
}

impl Order<'_> {
    fn verb(&self) -> u8 {
        match self {
            Order::AddPeer(_) => 0,
            Order::RemovePeer(_) => 1,
            Order::SetLimits(..) => 2,
            Order::SetBucket(..) => 3,
            Order::AddRoute(..) => 4,
            Order::RemoveRoute(_) => 5,
            Order::SetRate(..) => 6,
            Order::SettleIn(..) => 7,
            Order::SettleOut(..) => 8,
        }
    }
}
