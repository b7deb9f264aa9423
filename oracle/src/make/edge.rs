//! For each row of document 01's "Refused or halted" a case that reaches it
//! and a twin that just does not, and the same for the rules' own limits and for
//! document 02's ceiling and its refusal of a minimum queue time.
//!
//! A scenario sets one thing up in an otherwise harmless random state. Case 2n
//! and case 2n + 1 are twins: they draw the same numbers.

use super::chance::{Chance, xorshift};
use super::wild::overfill;
use crate::case::{
    AWAIT_DECISION, BEFORE_MATCH, Case, Config, DLV, Delivery, EVENT, Fill, MSG, Msg, OBS,
    OBS_QUEUED, ORD, Obs, Open, Order, State, TERMINAL,
};

const MAX: u64 = u64::MAX;
const HALF: u64 = 1 << 63;

/// A state with one row in work and nothing that goes wrong.
struct Edge<'a> {
    r: &'a mut Chance,
    /// Whether this is the twin that reaches the limit.
    hit: bool,
    config: Config,
    rows: Vec<u64>,
    s: State,
    /// The row in work, its time, and the time between rows.
    row: usize,
    t: u64,
    dt: u64,
    /// When the tested message runs: from `now` to the row's time.
    eff: u64,
    log: Option<u64>,
    calls: Vec<u64>,
}

/// Where a stamp is taken, a report raised or lots are released.
#[derive(Clone, Copy, PartialEq)]
enum Place {
    Accept,
    Reject,
    CancelBooked,
    CancelPending,
    CancelAwaiting,
    CancelNothing,
    Expire,
    Fill,
}

use Place::{
    Accept, CancelAwaiting, CancelBooked, CancelNothing, CancelPending, Expire, Fill as Match,
    Reject,
};

const REPORTS: [Place; 7] = [
    Accept,
    Reject,
    CancelBooked,
    CancelPending,
    CancelAwaiting,
    Expire,
    Match,
];

fn name(place: Place) -> &'static str {
    match place {
        Accept => "accept",
        Reject => "reject",
        CancelBooked => "cancel-booked",
        CancelPending => "cancel-pending",
        CancelAwaiting => "cancel-awaiting",
        CancelNothing => "cancel-nothing",
        Expire => "expire",
        Match => "match",
    }
}

/// The order set up at a place.
struct Placed {
    order: Order,
    side: usize,
    /// Lots released or filled.
    lots: u64,
    /// The time of the stamp.
    at: u64,
}

impl<'a> Edge<'a> {
    fn new(r: &'a mut Chance, hit: bool) -> Self {
        let dt = r.pick(&[10, 1_000, 1_000_000, 5_000_000]);
        let n = r.range(1, 5);
        let row = r.below(n) as usize;
        let start = r.range(5, 50) * dt;
        let mut rows = Vec::new();
        for i in 0..n {
            let bid = r.range(98, 103);
            let ask = bid + r.range(1, 3);
            rows.extend([start + (i + 1) * dt, bid, r.below(8), ask, r.below(8)]);
        }
        let t = rows[5 * row];
        let config = Config {
            quantum: r.pick(&[1, dt, dt / 2]),
            observation: r.below(3),
            ack: r.below(3),
            jitter: r.pick(&[0, 0, 1, 3]),
            ceiling: 0,
            s_max: 1000,
            fill: Fill::Immediate,
        };
        let mut s = State::new();
        s.phase = BEFORE_MATCH;
        s.resume = r.pick(&[BEFORE_MATCH, OBS_QUEUED]);
        s.cur_row = Some(row as u64);
        s.cursor = row as u64 + 1;
        s.now = t - dt + r.below(dt / 2);
        s.step = r.below(20);
        s.rng = r.number();
        s.stamp_seq = r.range(20, 60);
        s.next_msg_seq = r.range(20, 60);
        s.next_exec_id = r.below(9);
        s.position = r.below(41) as i64 - 20;
        s.agent = s.position;
        s.mark2 = r.coin().then_some(199);
        s.last_obs_row = r.coin().then_some(0);
        s.delivered_fills = r.below(9);
        s.venue_fills = r.below(9);
        let eff = s.now + r.below(t - s.now + 1);
        let calls = match r.below(8) {
            0 => vec![2],
            1 => vec![0, 1, 0],
            2 => vec![0, 1, 2],
            _ => vec![0],
        };
        let log = super::log(r, 12);
        let mut e = Self {
            r,
            hit,
            config,
            rows,
            s,
            row,
            t,
            dt,
            eff,
            log,
            calls,
        };
        e.surroundings();
        e
    }

    /// Orders that rest far away, and what comes after this row.
    fn surroundings(&mut self) {
        for id in 1..=self.r.below(4) {
            let order = self.resting(id);
            self.book(order);
            self.s.account.push(Open { id, awaiting: 0 });
        }
        for seq in 0..self.r.below(4) {
            let eff = self.t + 1 + self.dt * seq + self.r.below(self.dt);
            let msg = match self.r.below(3) {
                0 => Msg::cancel(eff, seq, self.r.range(1, 6)),
                1 => Msg::expire(eff, seq, self.r.range(1, 6)),
                _ => {
                    let mut order = self.resting(10 + seq);
                    order.state = 1;
                    order.active = eff;
                    self.s.live[order.side as usize] += order.qty;
                    Msg::activate(eff, seq, order, self.r.below(2) * self.dt)
                }
            };
            self.s.msgs.push(msg);
        }
        let mut at = self.t + 1;
        for seq in 0..self.r.below(3) {
            at += self.r.below(self.dt);
            let delivery = self.harmless(at, seq);
            self.s.deliveries.push(delivery);
            self.s.last_delivery = at;
        }
        let mut ready = self.t + 1;
        for row in 0..self.r.below(3) {
            ready += self.r.below(self.dt);
            self.s.observed.push(Obs { ready, row });
            self.s.last_observed = ready;
        }
    }

    fn choose<T>(&self, hit: T, miss: T) -> T {
        if self.hit { hit } else { miss }
    }

    /// One more when hit.
    fn more(&self) -> u64 {
        u64::from(self.hit)
    }

    fn bid(&self) -> u64 {
        self.rows[5 * self.row + 1]
    }

    fn ask(&self) -> u64 {
        self.rows[5 * self.row + 3]
    }

    /// An active order that no row crosses.
    fn resting(&mut self, id: u64) -> Order {
        let side = self.r.bit();
        let qty = self.r.range(2, 12);
        Order {
            id,
            side,
            price: match side {
                0 => self.r.range(50, 60),
                _ => self.r.range(150, 160),
            },
            qty,
            filled: self.r.below(2) * self.r.below(qty),
            state: 2,
            active: self.t - self.dt - self.r.below(3 * self.dt),
            cancel: 0,
        }
    }

    /// An active order that the row in work crosses.
    fn crossing(&mut self, id: u64) -> Order {
        let mut order = self.resting(id);
        let beyond = self.r.below(3);
        order.price = match order.side {
            0 => self.ask() + beyond,
            _ => self.bid() - beyond,
        };
        order
    }

    fn book(&mut self, order: Order) {
        self.s.live[order.side as usize] += order.remaining();
        self.s.orders.push(order);
    }

    /// A delivery that only writes its event.
    fn harmless(&mut self, at: u64, seq: u64) -> Delivery {
        Delivery {
            at,
            ts: at - self.r.below(self.dt),
            seq,
            order: self.r.range(90, 99),
            side: self.r.bit(),
            kind: self.r.pick(&[0, 0, 2, 3, 4]),
            origin: 1,
            pending: self.r.bit(),
            price: 100,
            qty: 5,
            last: 0,
            cum: self.r.below(3),
            ..Delivery::default()
        }
    }

    /// A delivery with a fill's record, first in the list.
    fn first_delivery(&mut self, side: u64, qty: u64) -> &mut Delivery {
        let at = self.eff;
        let mut d = self.harmless(at, 0);
        d.kind = 5;
        d.has = 1;
        d.fts = d.ts;
        d.fexec = 3;
        d.forder = d.order;
        d.fside = side;
        d.fprice = 100;
        d.fqty = qty;
        self.s.deliveries.insert(0, d);
        &mut self.s.deliveries.items[0]
    }

    fn first_msg(&mut self, msg: Msg) {
        self.s.msgs.insert(0, msg);
    }

    /// Some events before the tested one that change next to nothing.
    fn noise(&mut self) {
        let now = self.s.now;
        for seq in 0..self.r.below(3) {
            let delivery = self.harmless(now, seq);
            self.s.deliveries.insert(0, delivery);
        }
        if self.r.once_in(3) {
            self.first_msg(Msg::expire(now, 0, 77));
        }
    }

    /// No messages but those of the scenario.
    fn alone(&mut self) {
        self.s.msgs.truncate(0);
        self.s.deliveries.truncate(0);
        self.s.last_delivery = 0;
    }

    /// Sets up one report (or, with nothing to cancel, one stamp).
    fn place(&mut self, place: Place) -> Placed {
        let id = self.r.range(40, 44);
        let eff = self.eff;
        let mut order = self.resting(id);
        order.cancel = self.r.bit();
        let seq = self.r.below(5);
        let mut placed = Placed {
            order,
            side: order.side as usize,
            lots: order.remaining(),
            at: eff,
        };
        match place {
            Accept => {
                order.state = self.r.pick(&[1, 1, 1, 4]);
                order.active = eff;
                let life = self.r.below(2) * self.r.range(1, 2 * self.dt);
                self.s.live[placed.side] += placed.lots;
                self.first_msg(Msg::activate(eff, seq, order, life));
            }
            Reject => {
                order.state = 1;
                order.price = 0;
                order.active = eff;
                let life = self.r.below(2) * self.r.range(1, 2 * self.dt);
                self.s.live[placed.side] += placed.lots;
                self.first_msg(Msg::activate(eff, seq, order, life));
            }
            CancelBooked => {
                self.book(order);
                if self.r.coin() {
                    self.s.msgs.insert(0, Msg::expire(self.t + 5, 9, id));
                }
                self.first_msg(Msg::cancel(eff, seq, id));
            }
            CancelPending => {
                order.state = 1;
                self.s.live[placed.side] += placed.lots;
                let later = self.t + self.r.below(self.dt);
                self.s.msgs.insert(0, Msg::activate(later, 8, order, 0));
                self.first_msg(Msg::cancel(eff, seq, id));
            }
            CancelAwaiting => {
                order.state = self.r.pick(&[3, 4, 5]);
                order.cancel = 1;
                placed.lots = 0;
                self.s.awaiting.push(order);
                self.first_msg(Msg::cancel(eff, seq, id));
            }
            CancelNothing => {
                placed.lots = 0;
                self.first_msg(Msg::cancel(eff, seq, id));
            }
            Expire => {
                self.book(order);
                self.first_msg(Msg::expire(eff, seq, id));
            }
            Match => {
                let crossing = self.crossing(id);
                order.side = crossing.side;
                order.price = crossing.price;
                placed.side = order.side as usize;
                placed.at = self.t;
                self.book(order);
            }
        }
        placed.order = order;
        placed
    }

    /// A crossing order of exactly these lots that fills whole.
    fn whole_fill(&mut self, lots: u64) -> Placed {
        let mut order = self.crossing(45);
        order.qty = lots;
        order.filled = 0;
        order.cancel = self.r.bit();
        let side = order.side as usize;
        self.s.live[side] = self.s.live[side].saturating_add(lots);
        self.s.orders.push(order);
        Placed {
            order,
            side,
            lots,
            at: self.t,
        }
    }

    /// Lists are filled up, or nearly so, with what does no harm.
    fn fill_orders(&mut self, to: usize) {
        self.s.orders.truncate(to);
        while self.s.orders.items.len() < to {
            let order = self.resting(self.s.orders.count + 20);
            self.book(order);
        }
    }

    fn fill_awaiting(&mut self, to: usize) {
        while self.s.awaiting.items.len() < to {
            let mut order = self.resting(30 + 3 * self.s.awaiting.count);
            order.state = 3;
            order.cancel = 1;
            self.s.awaiting.push(order);
        }
    }

    fn fill_msgs(&mut self, to: usize) {
        while self.s.msgs.items.len() < to {
            let eff = self.t + 8 * self.dt + self.s.msgs.count;
            self.s.msgs.push(Msg::cancel(eff, self.s.msgs.count, 88));
        }
    }

    fn fill_deliveries(&mut self, to: usize) {
        while self.s.deliveries.items.len() < to {
            let at = self.t + 8 * self.dt + self.s.deliveries.count;
            let delivery = self.harmless(at, 7);
            self.s.deliveries.push(delivery);
        }
    }

    fn fill_observed(&mut self, to: usize) {
        while self.s.observed.items.len() < to {
            let ready = self.t + 8 * self.dt + self.s.observed.count;
            self.s.observed.push(Obs { ready, row: 0 });
        }
    }

    fn fill_account(&mut self, to: usize) {
        while self.s.account.items.len() < to {
            let id = self.s.account.count + 10;
            self.s.account.push(Open { id, awaiting: 0 });
        }
    }

    /// The state just after its last row, with all of it done.
    fn at_end(&mut self) {
        self.s.phase = OBS_QUEUED;
        self.s.cursor = self.rows.len() as u64 / 5 + self.r.below(2) * self.r.below(3);
        if self.r.coin() {
            self.s.cur_row = None;
        }
    }

    /// A pause, for `pass`.
    fn paused(&mut self) {
        self.s.phase = AWAIT_DECISION;
        self.calls = match self.r.below(4) {
            0 => vec![1, 0],
            1 => vec![0, 1, 1],
            _ => vec![1],
        };
    }

    /// When hit, words too few or too many for whole rows.
    fn torn(&mut self) {
        let extra = self.r.range(1, 4);
        if self.hit {
            match extra % 2 {
                0 => self.rows.truncate(self.rows.len() - extra as usize),
                _ => self.rows.extend(0..extra),
            }
        }
    }

    /// An order to match by the queue rule, and a minimum queue time, or none.
    fn minimum(&mut self, there: bool) {
        self.place(Match);
        let min = self.r.pick(&[1, 1, 2, 1_000, MAX]);
        self.config.fill = Fill::Queue {
            rate: self.r.below(12),
            per: self.r.range(1, 3),
            min: if there { min } else { 0 },
        };
    }

    /// The jitter's next draw.
    fn draw(&self) -> u64 {
        match (self.config.jitter, xorshift(self.s.rng).1) {
            (0, _) => 0,
            (MAX, n) => n,
            (max, n) => n % (max + 1),
        }
    }

    /// The base delay that just fits (or just does not) by the sum.
    fn sum_limit(&mut self) -> u64 {
        self.config.quantum = 0;
        self.config.jitter = self.r.pick(&[1, 5, 1000, MAX - 1, MAX]);
        while self.draw() == 0 {
            self.s.rng = self.r.number() | 1;
        }
        MAX - self.draw() + self.more()
    }

    /// The same by the product; the time of it still fits.
    fn product_limit(&mut self) -> u64 {
        self.config.jitter = 0;
        loop {
            let quantum = self.r.number() >> self.r.range(0, 4);
            if quantum > 1 && MAX % quantum > HALF >> 6 {
                self.config.quantum = quantum;
                return MAX / quantum + self.more();
            }
        }
    }

    /// The same by the sum of time and delay.
    fn time_limit(&mut self, at: u64) -> u64 {
        self.config.jitter = 0;
        self.config.quantum = 1;
        MAX - at + self.more()
    }
}

type Set = fn(&mut Edge);
type Make = Box<dyn Fn(&mut Edge)>;

struct Scenario {
    name: String,
    /// The refusal or halt of the case that hits; 0: neither twin has one.
    gives: u64,
    make: Make,
}

pub struct Edges {
    scenarios: Vec<Scenario>,
}

impl Edges {
    pub fn new() -> Self {
        let mut edges = Self {
            scenarios: Vec::new(),
        };
        edges.refusals();
        edges.minima();
        edges.rows_and_messages();
        edges.gate_and_delay();
        edges.ceilings();
        edges.full_lists();
        edges.fills();
        edges.deliveries_and_end();
        edges.limits();
        edges.queue_rule();
        edges.searches();
        edges
    }

    pub fn case(&self, seed: u64, index: u64) -> Case {
        let pair = index / 2;
        let scenario = &self.scenarios[(pair % self.scenarios.len() as u64) as usize];
        let hit = index.is_multiple_of(2);
        let r = &mut Chance::new(seed ^ 0xED6E, pair);
        let mut e = Edge::new(r, hit);
        (scenario.make)(&mut e);
        let twin = match (hit, scenario.gives) {
            (true, 0) => "on".to_string(),
            (true, n) => format!("hit{n}"),
            (false, _) => "off".to_string(),
        };
        Case {
            name: format!("edge.{}.{twin}.{seed}.{index}", scenario.name),
            config: e.config,
            log: e.log,
            rows: e.rows,
            state: e.s,
            calls: e.calls,
        }
    }

    fn add(&mut self, name: impl Into<String>, gives: u64, make: impl Fn(&mut Edge) + 'static) {
        self.scenarios.push(Scenario {
            name: name.into(),
            gives,
            make: Box::new(make),
        });
    }

    fn refusals(&mut self) {
        self.add("rows-torn", 101, |e| e.torn());
        self.add("rows-torn-pass", 0, |e| {
            e.paused();
            e.calls = vec![1];
            e.torn();
        });
        let lists: [(&str, Set); 6] = [
            ("orders", |e| {
                e.fill_orders(ORD);
                e.s.orders.count += e.more();
            }),
            ("msgs", |e| {
                e.fill_msgs(MSG);
                e.s.msgs.count += e.more();
            }),
            ("awaiting", |e| {
                e.fill_awaiting(ORD);
                e.s.awaiting.count += e.more();
            }),
            ("deliveries", |e| {
                e.fill_deliveries(DLV);
                e.s.deliveries.count += e.more();
            }),
            ("observed", |e| {
                e.fill_observed(OBS);
                e.s.observed.count += e.more();
            }),
            ("account", |e| {
                e.fill_account(ORD);
                e.s.account.count += e.more();
            }),
        ];
        for (list, fill) in lists {
            self.add(format!("count-{list}-advance"), 102, fill);
            self.add(format!("count-{list}-pass"), 102, move |e| {
                e.paused();
                e.calls = vec![1];
                fill(e);
            });
        }
        self.add("order-101-102", 101, |e| {
            overfill(e.r, &mut e.s);
            e.torn();
        });
        self.add("pass-phase", 103, |e| {
            e.paused();
            e.calls = vec![1];
            let other = e.r.pick(&[1, 3, 5]);
            e.s.phase = e.choose(other, AWAIT_DECISION);
        });
        self.add("pass-resume", 104, |e| {
            e.paused();
            let (bad, good) = (e.r.pick(&[4, 5]), e.r.pick(&[1, 3]));
            e.s.resume = e.choose(bad, good);
        });
        self.add("pass-step", 105, |e| {
            e.paused();
            e.s.step = MAX - 1 + e.more();
        });
        self.add("order-102-103", 102, |e| {
            e.paused();
            e.calls = vec![1];
            e.s.phase = e.r.pick(&[1, 3, 5]);
            if e.hit {
                overfill(e.r, &mut e.s);
            }
        });
        self.add("order-103-104", 103, |e| {
            e.paused();
            e.calls = vec![1];
            e.s.resume = e.r.pick(&[4, 5]);
            let other = e.r.pick(&[1, 3, 5]);
            e.s.phase = e.choose(other, AWAIT_DECISION);
        });
        self.add("order-104-105", 104, |e| {
            e.paused();
            e.s.step = MAX;
            let (bad, good) = (e.r.pick(&[4, 5]), e.r.pick(&[1, 3]));
            e.s.resume = e.choose(bad, good);
        });
    }

    /// N11's refusal of a minimum queue time.
    fn minima(&mut self) {
        for (label, phase) in [
            ("before-match", BEFORE_MATCH),
            ("obs-queued", OBS_QUEUED),
            ("await-decision", AWAIT_DECISION),
            ("terminal", TERMINAL),
        ] {
            self.add(format!("minimum-{label}"), 115, move |e| {
                e.minimum(e.hit);
                e.s.phase = phase;
                if phase == TERMINAL {
                    e.s.status = e.r.pick(&[[1, 0], [2, 0], [3, 7]]);
                }
            });
        }
        self.add("minimum-turns", 115, |e| {
            e.minimum(e.hit);
            e.s.phase = e.r.pick(&[1, 3, 4, 5]);
            e.calls = vec![2];
        });
        self.add("minimum-per-0", 115, |e| {
            // Without the minimum the rule halts 7.
            e.minimum(e.hit);
            if let Fill::Queue { per, .. } = &mut e.config.fill {
                *per = 0;
            }
        });
        self.add("order-101-115", 101, |e| {
            e.minimum(true);
            e.s.phase = e.r.pick(&[1, 3, 4, 5]);
            e.torn();
        });
        self.add("order-102-115", 102, |e| {
            e.minimum(true);
            e.s.phase = e.r.pick(&[1, 3, 4, 5]);
            if e.hit {
                overfill(e.r, &mut e.s);
            }
        });
        // `pass` does not look at it: it passes, or has its own refusals.
        self.add("minimum-pass", 0, |e| {
            e.paused();
            e.calls = e.r.pick(&[&[1][..], &[1, 0], &[1, 1]]).to_vec();
            e.minimum(e.hit);
        });
        let refusals: [(&str, u64, Set); 4] = [
            ("count", 102, |e| {
                if e.hit {
                    overfill(e.r, &mut e.s);
                }
            }),
            ("phase", 103, |e| {
                let other = e.r.pick(&[1, 3, 5]);
                e.s.phase = e.choose(other, AWAIT_DECISION);
            }),
            ("resume", 104, |e| {
                let (bad, good) = (e.r.pick(&[4, 5]), e.r.pick(&[1, 3]));
                e.s.resume = e.choose(bad, good);
            }),
            ("step", 105, |e| e.s.step = MAX - 1 + e.more()),
        ];
        for (what, gives, set) in refusals {
            self.add(format!("pass-{what}-minimum"), gives, move |e| {
                e.paused();
                e.calls = vec![1];
                e.minimum(true);
                set(e);
            });
        }
    }

    fn rows_and_messages(&mut self) {
        self.add("row-none", 7, |e| {
            e.s.cur_row = e.choose(None, e.s.cur_row);
        });
        for (label, phase) in [("before-match", BEFORE_MATCH), ("obs-queued", OBS_QUEUED)] {
            self.add(format!("row-absent-{label}"), 7, move |e| {
                let n = e.rows.len() as u64 / 5;
                let past = n + e.r.pick(&[0, 0, 0, 1, MAX - n]);
                e.s.phase = phase;
                e.s.cur_row = Some(e.choose(past, n - 1));
                e.s.cursor = e.choose(past, n - 1).saturating_add(1);
            });
        }
        fn expiring(e: &mut Edge, valid: bool, over: bool) {
            let mut order = e.resting(46);
            order.state = 1;
            if !valid {
                match e.r.coin() {
                    true => order.price = 0,
                    false => order.qty = 0,
                }
            }
            let life = match e.r.below(3) {
                0 => e.r.number() | 1,
                1 => e.r.range(1, 9),
                _ => MAX - e.r.below(3),
            };
            order.active = MAX - life + u64::from(over);
            e.s.live[order.side as usize] += order.remaining();
            let eff = e.eff;
            e.first_msg(Msg::activate(eff, 4, order, life));
        }
        self.add("expiry-time", 6, |e| {
            expiring(e, true, e.hit);
            e.noise();
        });
        self.add("expiry-time-invalid", 0, |e| expiring(e, false, e.hit));
        self.add("expiry-seq", 7, |e| {
            expiring(e, true, false);
            e.s.next_msg_seq = MAX - 1 + e.more();
            e.noise();
        });
        self.add("expiry-seq-invalid", 0, |e| {
            expiring(e, false, false);
            e.s.next_msg_seq = MAX - 1 + e.more();
        });
        self.add("expiry-seq-no-life", 0, |e| {
            e.place(Accept);
            e.s.msgs.items[0].life = 0;
            e.s.next_msg_seq = MAX - 1 + e.more();
        });
        self.add("order-expiry-6-7", 6, |e| {
            expiring(e, true, e.hit);
            e.s.next_msg_seq = MAX;
        });
        for place in REPORTS.into_iter().chain([CancelNothing]) {
            self.add(format!("stamp-{}", name(place)), 7, move |e| {
                e.place(place);
                e.s.stamp_seq = MAX - 1 + e.more();
                e.noise();
            });
        }
        self.add("stamp-expire-nothing", 0, |e| {
            let eff = e.eff;
            e.first_msg(Msg::expire(eff, 1, 70));
            e.alone();
            e.first_msg(Msg::expire(eff, 1, 70));
            e.s.stamp_seq = MAX - 1 + e.more();
        });
    }

    fn gate_and_delay(&mut self) {
        for place in [Reject, CancelBooked, CancelPending, Expire] {
            self.add(format!("release-{}", name(place)), 7, move |e| {
                let placed = e.place(place);
                e.s.live[placed.side] = placed.lots - e.more();
                e.noise();
            });
        }
        self.add("release-no-lots", 0, |e| {
            // Filled at or above its quantity: nothing is released.
            let place = e.r.pick(&[CancelBooked, Expire]);
            e.place(place);
            let order = e.s.orders.items.last_mut().expect("the order placed");
            order.filled = order.qty + u64::from(e.hit);
            e.s.live = [0, 0];
        });
        for place in REPORTS {
            self.add(format!("delay-sum-{}", name(place)), 6, move |e| {
                e.alone();
                e.place(place);
                e.config.ack = e.sum_limit();
                e.config.observation = 0;
            });
            self.add(format!("delay-product-{}", name(place)), 6, move |e| {
                e.alone();
                e.place(place);
                e.config.ack = e.product_limit();
                e.config.observation = 0;
            });
            self.add(format!("delay-time-{}", name(place)), 6, move |e| {
                e.alone();
                let at = e.place(place).at;
                e.config.ack = e.time_limit(at);
                e.config.observation = 0;
            });
        }
        self.add("delay-sum-observation", 6, |e| {
            e.config.observation = e.sum_limit();
            e.config.ack = 0;
        });
        self.add("delay-product-observation", 6, |e| {
            e.config.observation = e.product_limit();
            e.config.ack = 0;
        });
        self.add("delay-time-observation", 6, |e| {
            // The delay counts from the row's time, not from `now`.
            let t = e.t;
            e.config.observation = e.time_limit(t);
            e.config.ack = 0;
            e.s.now += e.r.below(2) * 3 * e.dt;
        });
        self.add("delay-product-at-zero", 6, |e| {
            // At time 0 only the product is in the way.
            e.alone();
            e.s.observed.truncate(0);
            e.s.orders.truncate(0);
            e.eff = 0;
            let order = Order {
                id: 45,
                side: e.r.bit(),
                price: e.r.bit() * 7,
                qty: 4,
                filled: 0,
                state: 1,
                active: 0,
                cancel: e.r.bit(),
            };
            e.s.live = [4, 4];
            e.first_msg(Msg::activate(0, 0, order, 0));
            e.s.now = 0;
            e.s.last_observed = 0;
            for row in e.rows.chunks_mut(5) {
                row[0] = 0;
            }
            let limit = e.product_limit();
            let report = e.r.coin();
            e.config.ack = if report { limit } else { 0 };
            e.config.observation = if report { 0 } else { limit };
        });
        self.add("delay-now-report", 6, |e| {
            // A report's delay counts from `now`, which may be past the row.
            e.alone();
            e.place(Match);
            e.s.now = e.t + e.r.below(e.dt);
            let now = e.s.now;
            e.config.ack = e.time_limit(now);
            e.config.observation = 0;
        });
    }

    /// N5's ceiling on a report's delay and on an observation's, the generator
    /// moved in each. Of both there is said from which time the delay counts, and
    /// where its base stands.
    fn ceilings(&mut self) {
        fn report(e: &mut Edge) -> u64 {
            e.alone();
            e.config.observation = 0;
            let place = e.r.pick(&REPORTS);
            e.place(place).at
        }
        fn observation(e: &mut Edge) -> u64 {
            e.s.observed.truncate(0);
            e.s.last_observed = 0;
            e.config.ack = 0;
            e.t
        }
        /// The longest draw is above 0, and a quantum is 1 ns.
        fn short(e: &mut Edge) {
            e.config.quantum = 1;
            e.config.jitter = e.r.pick(&[1, 3, 9]);
        }
        /// A base of some ns, and its delay.
        fn some(e: &mut Edge) -> (u64, u64) {
            short(e);
            let base = e.r.range(2, 2 * e.dt);
            (base, base + e.draw())
        }
        /// A ceiling of some ns.
        fn low(e: &mut Edge) -> u64 {
            e.r.range(1, 3 * e.dt)
        }
        let delays: [(&str, fn(&mut Edge) -> u64, fn(&mut Config, u64)); 2] = [
            ("report", report, |c, base| c.ack = base),
            ("observation", observation, |c, base| c.observation = base),
        ];
        for (what, from, set) in delays {
            let mut add = |name: &str, gives: u64, make: fn(&mut Edge, u64) -> u64| {
                self.add(format!("ceiling-{name}-{what}"), gives, move |e| {
                    let at = from(e);
                    let base = make(e, at);
                    set(&mut e.config, base);
                });
            };
            // One below, and at it.
            add("at", 0, |e, _| {
                let (base, ns) = some(e);
                e.config.ceiling = ns + 1 - e.more();
                base
            });
            // At it, and one above.
            add("above", 0, |e, _| {
                let (base, ns) = some(e);
                e.config.ceiling = ns - e.more();
                base
            });
            // 0 is none.
            add("none", 0, |e, _| {
                e.config.ceiling = 1 - e.more();
                some(e).0
            });
            // A sum past 64 bits, with a ceiling and without, whatever the quantum.
            add("sum", 6, |e, _| {
                let base = e.sum_limit() + 1 - e.more();
                e.config.quantum = e.r.pick(&[0, 1, e.dt]);
                let ceiling = low(e);
                e.config.ceiling = e.choose(0, ceiling);
                base
            });
            // With quantum 0 the delay is 0, or the ceiling.
            add("sum-fits", 0, |e, _| {
                e.config.ceiling = low(e);
                e.sum_limit()
            });
            // A product past 64 bits, with a ceiling and without.
            add("product", 6, |e, _| {
                e.config.jitter = e.r.pick(&[1, 3, 9]);
                let quantum = e.r.number() >> e.r.range(8, 40);
                e.config.quantum = quantum.max(2);
                let ceiling = low(e);
                e.config.ceiling = e.choose(0, ceiling);
                MAX / e.config.quantum + 1 - e.draw()
            });
            // The ceiling is above the longest product.
            add("product-fits", 0, |e, _| {
                let quanta = e.product_limit();
                e.config.jitter = 1;
                e.config.ceiling = MAX - e.t - e.r.below(3);
                quanta - e.draw()
            });
            // A time past 64 bits, by the ceiling.
            add("time", 6, |e, at| {
                short(e);
                e.config.ceiling = MAX - at + e.more();
                MAX - e.r.below(10)
            });
            // A time past 64 bits but for the ceiling.
            add("time-before", 0, |e, at| {
                short(e);
                e.config.ceiling = low(e);
                MAX - at + e.more() - e.draw()
            });
            // It bounds the delay, not the time: behind an earlier one.
            add("behind", 0, |e, at| {
                let (base, ns) = some(e);
                e.config.ceiling = e.r.range(1, ns - 1);
                let last = at + e.config.ceiling + e.more();
                e.s.last_delivery = last;
                e.s.last_observed = last;
                base
            });
        }
    }

    fn full_lists(&mut self) {
        self.add("full-orders", 7, |e| {
            e.place(Accept);
            e.fill_orders(ORD - 1 + e.more() as usize);
            e.noise();
        });
        for place in [Reject, Expire, Match] {
            self.add(format!("full-awaiting-{}", name(place)), 7, move |e| {
                e.place(place);
                for order in e.s.orders.items.iter_mut().filter(|o| o.id >= 40) {
                    order.cancel = 1;
                }
                for msg in e.s.msgs.items.iter_mut().filter(|m| m.kind == 0) {
                    msg.cancel = 1;
                }
                e.fill_awaiting(ORD - 1 + e.more() as usize);
            });
        }
        self.add("full-awaiting-terminal", 7, |e| {
            // Found terminal at entry, among others that stay or go.
            let mut order = e.resting(47);
            order.state = e.r.pick(&[3, 4, 5]);
            order.cancel = 1;
            let place = e.r.below(e.s.orders.count + 1) as usize;
            e.s.orders.insert(place, order);
            let mut later = e.resting(48);
            later.state = e.r.pick(&[2, 3, 4]);
            if e.s.orders.items.len() < ORD {
                e.s.orders.push(later);
            }
            e.first_msg(Msg::expire(e.t + 3, 1, 47));
            e.fill_awaiting(ORD - 1 + e.more() as usize);
        });
        for place in REPORTS {
            self.add(format!("full-deliveries-{}", name(place)), 7, move |e| {
                e.place(place);
                e.fill_deliveries(DLV - 1 + e.more() as usize);
            });
        }
        self.add("full-observations", 7, |e| {
            e.fill_observed(OBS - 1 + e.more() as usize);
            e.noise();
        });
        self.add("full-msgs-expiry", 0, |e| {
            // The expiry takes the slot that its activation left.
            e.place(Accept);
            e.s.msgs.items[0].life = e.dt + 3;
            e.fill_msgs(MSG - 1 + e.more() as usize);
        });
    }

    fn fills(&mut self) {
        self.add("mid-match", 5, |e| {
            let bid = e.r.number() >> e.r.below(63);
            let at = 5 * e.row;
            e.rows[at + 1] = bid;
            e.rows[at + 3] = (MAX - bid).saturating_add(e.more());
            if bid == 0 {
                e.rows[at + 1] = e.more();
                e.rows[at + 3] = MAX;
            }
        });
        self.add("mid-row-end", 5, |e| {
            e.s.phase = OBS_QUEUED;
            let bid = 1 + (e.r.number() >> e.r.range(1, 62));
            let at = 5 * e.row;
            e.rows[at + 1] = bid;
            e.rows[at + 3] = MAX - bid + e.more();
            e.noise();
        });
        self.add("mid-zero", 0, |e| {
            // No mark at 0; an ask of 0 crosses every Buy.
            let at = 5 * e.row;
            e.rows[at + 1] = 0;
            e.rows[at + 3] = 1 - e.more();
        });
        self.add("gate-live", 7, |e| {
            let lots = e.r.range(1, 12);
            let placed = e.whole_fill(lots);
            e.s.live[placed.side] = lots - e.more();
            e.noise();
        });
        self.add("gate-lots", 7, |e| {
            e.s.orders.truncate(0);
            e.alone();
            let placed = e.whole_fill(HALF - 1 + e.more());
            e.s.live = [MAX, MAX];
            // Too many lots halt whatever the sum; one fewer fit below.
            let lots = e.r.pick(&[0, 1, 7]);
            let below = (placed.side == 0) ^ (e.r.coin() && e.hit);
            e.s.position = if below { -lots } else { lots };
        });
        self.add("gate-position", 7, |e| {
            let bits = e.r.range(1, 62);
            let lots = e.r.range(1, 1 << bits);
            let placed = e.whole_fill(lots);
            let over = (lots - e.more()) as i64;
            e.s.live[placed.side] = MAX;
            e.s.position = match placed.side {
                0 => i64::MAX - over,
                _ => i64::MIN + over,
            };
            // The agent's own rule is not to be met here.
            e.s.agent = 0;
        });
        fn fill_at(e: &mut Edge, price: u64) -> Placed {
            let mut placed = e.whole_fill(5);
            let order = e.s.orders.items.last_mut().expect("the order placed");
            order.price = price;
            let at = 5 * e.row;
            match placed.side {
                0 => e.rows[at + 3] = price - e.r.below(2),
                _ => e.rows[at + 1] = price + e.r.below(2),
            }
            placed.order.price = price;
            placed
        }
        self.add("price-doubled", 5, |e| {
            e.s.orders.truncate(0);
            let price = HALF - 1 + e.more();
            fill_at(e, price);
        });
        self.add("exec-id", 7, |e| {
            e.whole_fill(5);
            e.s.next_exec_id = MAX - 1 + e.more();
            e.noise();
        });
        self.add("venue-fills", 7, |e| {
            e.whole_fill(5);
            e.s.venue_fills = MAX - 1 + e.more();
            e.noise();
        });
        self.add("order-stamp-gate", 7, |e| {
            // Both give 7; the stamp is taken only where it is not the cause.
            let placed = e.whole_fill(5);
            e.s.live[placed.side] = 4;
            e.s.stamp_seq = MAX - 1 + e.more();
        });
        self.add("order-gate-price", 7, |e| {
            e.s.orders.truncate(0);
            let placed = fill_at(e, HALF + 3);
            e.s.live[placed.side] = 5 - e.more();
        });
        self.add("order-price-exec", 5, |e| {
            e.s.orders.truncate(0);
            let price = HALF - 1 + e.more();
            fill_at(e, price);
            e.s.next_exec_id = MAX;
        });
        self.add("order-exec-fills", 7, |e| {
            e.whole_fill(5);
            e.s.next_exec_id = MAX - 1 + e.more();
            e.s.venue_fills = MAX;
        });
        self.add("order-fills-delay", 7, |e| {
            e.whole_fill(5);
            e.s.venue_fills = MAX - 1 + e.more();
            e.config.quantum = MAX;
            e.config.ack = 2;
        });
        self.add("fill-keeps-booked", 6, |e| {
            // The report's halt keeps the filled order in the book.
            let placed = e.whole_fill(5);
            e.alone();
            e.config.ack = e.time_limit(placed.at);
        });
    }

    fn deliveries_and_end(&mut self) {
        for end in [false, true] {
            let label = if end { "end" } else { "walk" };
            self.add(format!("agent-lots-{label}"), 5, move |e| {
                if end {
                    e.at_end();
                }
                let side = e.r.bit();
                e.s.agent = match side {
                    0 => -(e.r.below(9) as i64),
                    _ => e.r.below(9) as i64,
                };
                let lots = HALF - 1 + e.more();
                e.first_delivery(side, lots);
            });
            self.add(format!("agent-position-{label}"), 5, move |e| {
                if end {
                    e.at_end();
                }
                let side = e.r.bit();
                let bits = e.r.range(1, 62);
                let lots = e.r.range(1, 1 << bits);
                let over = (lots - e.more()) as i64;
                e.s.agent = match side {
                    0 => i64::MAX - over,
                    _ => i64::MIN + over,
                };
                e.first_delivery(side, lots);
                e.noise();
            });
            self.add(format!("delivered-fills-{label}"), 7, move |e| {
                if end {
                    e.at_end();
                }
                let lots = e.r.below(9);
                let (side, kind) = (e.r.bit(), e.r.below(6));
                e.first_delivery(side, lots).kind = kind;
                e.s.delivered_fills = MAX - 1 + e.more();
            });
            self.add(format!("local-rejects-{label}"), 7, move |e| {
                if end {
                    e.at_end();
                }
                let record = e.r.bit();
                let d = e.first_delivery(0, 0);
                d.kind = 1;
                d.origin = 0;
                if record == 0 {
                    *d = Delivery {
                        has: 0,
                        fts: 0,
                        fexec: 0,
                        forder: 0,
                        fside: 0,
                        fprice: 0,
                        fqty: 0,
                        ..*d
                    };
                }
                e.s.local_rejects = MAX - 1 + e.more();
            });
            self.add(format!("order-agent-count-{label}"), 5, move |e| {
                if end {
                    e.at_end();
                }
                e.s.agent = i64::MAX - 5 + i64::from(e.hit);
                e.first_delivery(0, 5);
                e.s.delivered_fills = MAX;
            });
        }
        self.add("local-rejects-venue", 0, |e| {
            let origin = e.r.bit().max(u64::from(e.hit));
            let kind = e.r.below(6);
            let d = e.first_delivery(1, 2);
            d.origin = origin;
            d.kind = if kind == 1 && origin == 0 { 2 } else { kind };
            e.s.local_rejects = MAX;
        });
        self.add("end-msgs", 7, |e| {
            e.at_end();
            e.s.cur_row = None;
            e.fill_msgs(1);
            e.s.eof_msgs = MAX - e.s.msgs.count + e.more();
        });
        self.add("end-observations", 7, |e| {
            e.at_end();
            e.s.cur_row = None;
            e.fill_observed(1);
            e.s.eof_obs = MAX - e.s.observed.count + e.more();
        });
        self.add("end-both", 7, |e| {
            e.at_end();
            e.s.cur_row = None;
            e.fill_msgs(1);
            e.fill_observed(1);
            e.s.eof_obs = MAX - e.s.observed.count + 1;
            e.s.eof_msgs = MAX - e.s.msgs.count + e.more();
        });
        self.add("end-unsorted", 0, |e| {
            // Delivered in list order whatever the times, the clock standing.
            e.at_end();
            let side = e.r.bit();
            e.first_delivery(side, 3).kind = 4;
            for at in [e.t + 5, 3, MAX, e.t] {
                let mut d = e.harmless(e.t, 1);
                d.at = at;
                e.s.deliveries.push(d);
            }
            let mut order = e.resting(49);
            order.state = 1;
            for msg in [
                Msg::expire(9, 1, 5),
                Msg::activate(3, 9, order, e.more()),
                Msg::cancel(e.t, 1, 6),
            ] {
                e.s.msgs.push(msg);
            }
            e.s.cur_row = None;
        });
    }

    fn limits(&mut self) {
        self.add("limit-message", 0, |e| {
            let place = e.r.pick(&[Accept, Reject, CancelBooked, Expire]);
            e.eff = e.t;
            e.alone();
            e.place(place);
            e.s.msgs.items[0].eff = e.t + e.more();
        });
        self.add("limit-delivery", 0, |e| {
            e.s.deliveries.truncate(0);
            let side = e.r.bit();
            let at = e.t + e.more();
            e.first_delivery(side, 4).at = at;
        });
        self.add("limit-observation", 0, |e| {
            let ready = e.t + e.more();
            e.s.observed.insert(0, Obs { ready, row: 0 });
        });
        self.add("ties", 0, |e| {
            // All three at one time, or one of them a little off.
            let at = e.eff.max(1);
            e.place(CancelNothing);
            e.first_delivery(0, 3);
            e.s.observed.insert(0, Obs { ready: at, row: 0 });
            let which = e.r.below(3);
            let off = e.choose(at, at - 1);
            e.s.msgs.items[0].eff = if which == 0 { off } else { at };
            e.s.deliveries.items[0].at = if which == 1 { off } else { at };
            e.s.observed.items[0].ready = if which == 2 { off } else { at };
        });
        self.add("clock", 0, |e| {
            // `now` never falls, for a message, a delivery or the row.
            e.place(Match);
            e.s.now = e.t + e.more() * e.r.range(1, 99);
            let eff = e.t - 1;
            e.first_msg(Msg::cancel(eff, 0, 71));
        });
        self.add("cross", 0, |e| {
            let placed = e.whole_fill(5);
            let (bid, ask) = (e.bid(), e.ask());
            let order = e.s.orders.items.last_mut().expect("the order placed");
            order.price = match (placed.side, e.hit) {
                (0, true) => ask,
                (0, false) => ask - 1,
                (_, true) => bid,
                (_, false) => bid + 1,
            };
        });
        self.add("active-after", 0, |e| {
            e.whole_fill(5);
            let active = e.t - e.more();
            e.s.orders
                .items
                .last_mut()
                .expect("the order placed")
                .active = active;
        });
        self.add("price-zero", 0, |e| {
            let placed = e.whole_fill(5);
            let at = 5 * e.row;
            e.rows[at + 3] = 0;
            let price = 1 - e.more();
            e.s.orders.items.last_mut().expect("the order placed").price = price;
            let _ = placed;
        });
        self.add("remaining-zero", 0, |e| {
            e.whole_fill(5);
            let filled = 4 + e.more() * e.r.range(1, 3);
            let order = e.s.orders.items.last_mut().expect("the order placed");
            order.filled = filled;
            if e.r.coin() {
                e.config.fill = Fill::Queue {
                    rate: 9,
                    per: e.choose(0, 1),
                    min: 0,
                };
            }
        });
        self.add("order-state", 0, |e| {
            e.whole_fill(5);
            let state = e.r.pick(&[1, 3, 4, 5]);
            let state = e.choose(state, 2);
            e.s.orders.items.last_mut().expect("the order placed").state = state;
        });
        self.add("filled-activation", 0, |e| {
            // Booked with its `filled`, and never matched.
            let eff = e.eff;
            let mut order = e.crossing(45);
            order.active = eff.saturating_sub(2);
            order.state = e.r.range(1, 5);
            order.filled = order.qty - 1 + e.more();
            order.cancel = e.r.bit();
            e.s.live[order.side as usize] += order.remaining();
            e.first_msg(Msg::activate(eff, 1, order, 0));
        });
        self.add("steps-observation", 0, |e| {
            let ready = e.eff;
            e.s.observed.insert(0, Obs { ready, row: 0 });
            e.s.step = e.config.s_max - 1 + e.more() + e.more() * e.r.below(2);
        });
        self.add("steps-row", 0, |e| {
            e.s.phase = OBS_QUEUED;
            e.s.cursor = e.row as u64;
            e.s.cur_row = None;
            e.s.step = e.config.s_max - 1 + e.more();
        });
        self.add("steps-end", 0, |e| {
            // At the end of data `s_max` does not matter.
            e.s.phase = OBS_QUEUED;
            e.s.observed.truncate(0);
            e.s.step = e.config.s_max;
            let n = e.rows.len() as u64 / 5;
            e.s.cursor = n - 1 + e.more();
        });
        self.add("last-delivery", 0, |e| {
            e.alone();
            let place = e.r.pick(&REPORTS);
            let at = e.place(place).at;
            e.config.quantum = 1;
            e.config.jitter = 0;
            e.s.last_delivery = at + e.config.ack - 1 + 2 * e.more();
        });
        self.add("last-observed", 0, |e| {
            e.config.quantum = 1;
            e.config.jitter = 0;
            e.s.last_observed = e.t + e.config.observation - 1 + 2 * e.more();
        });
        self.add("log", 0, |e| {
            e.place(Match);
            e.log = Some(EVENT as u64 * e.r.range(1, 5) - e.more());
            e.calls = vec![0];
        });
        self.add("jitter", 0, |e| {
            e.config.quantum = 0;
            e.config.ack = 0;
            e.config.observation = 0;
            let rng = e.r.pick(&[0, 1, 2, MAX]);
            if e.r.coin() {
                e.s.rng = rng;
            }
            e.config.jitter = match e.r.coin() {
                true => MAX - e.more(),
                false => e.more(),
            };
            e.place(Match);
            e.place(Accept);
        });
        self.add("jitter-times", 0, |e| {
            e.config.quantum = 1;
            e.config.jitter = e.r.range(1, 9) * (1 + e.more());
            e.place(Match);
            e.place(Accept);
            e.place(CancelBooked);
        });
    }

    fn queue_rule(&mut self) {
        /// A crossing order and the rule's numbers: (rate, per, ms).
        fn set(e: &mut Edge, qty: u64, filled: u64, through: bool, [rate, per, ms]: [u64; 3]) {
            let mut order = e.crossing(45);
            order.qty = qty;
            order.filled = filled;
            order.price = match (order.side, through) {
                (0, false) => e.ask(),
                (0, true) => e.ask() + 1,
                (_, false) => e.bid(),
                (_, true) => e.bid() - 1,
            };
            // A later row: the time in the queue is what the scenario says.
            let spare = e.r.below(1_000_000);
            let shift = (ms + 1) * 1_000_000;
            for row in e.rows.chunks_mut(5) {
                row[0] += shift;
            }
            e.t += shift;
            order.active = e.t - ms * 1_000_000 - spare;
            e.alone();
            e.s.observed.truncate(0);
            e.config.fill = Fill::Queue { rate, per, min: 0 };
            e.book(order);
        }
        fn ahead(e: &mut Edge, lots: u64) {
            let at = 5 * e.row;
            e.rows[at + 2] = lots;
            e.rows[at + 4] = lots;
        }
        self.add("queue-per-0", 7, |e| {
            // In the first millisecond, where nothing clears.
            let per = 1 - e.more();
            let through = e.r.coin();
            set(e, 9, 0, through, [3, per, 0]);
            let active = e.t - e.r.range(1, 999_999);
            e.s.orders.items.last_mut().expect("the order").active = active;
        });
        self.add("queue-per-1", 7, |e| {
            let per = 1 - e.more();
            let through = e.r.coin();
            set(e, 9, 0, through, [3, per, 4]);
        });
        self.add("queue-per-0-no-cross", 0, |e| {
            let place = e.resting(45);
            e.config.fill = Fill::Queue {
                rate: 3,
                per: 1 - e.more(),
                min: 0,
            };
            e.book(place);
        });
        self.add("queue-ms", 0, |e| {
            // A nanosecond less than a whole millisecond.
            set(e, 9, 0, true, [1, 1, 4]);
            let active = e.t - 3_000_000 + e.more();
            e.s.orders.items.last_mut().expect("the order").active = active;
        });
        self.add("queue-ahead", 0, |e| {
            let (rate, per, ms) = (e.r.range(1, 5), e.r.range(1, 3), e.r.range(3, 9));
            set(e, 20, 0, false, [rate, per, ms]);
            let cleared = rate * ms / per;
            let lots = cleared - 1 + e.more();
            ahead(e, lots);
        });
        self.add("queue-through", 0, |e| {
            let (rate, ms) = (e.r.range(1, 5), e.r.range(1, 9));
            let through = e.hit;
            set(e, 20, 0, through, [rate, 1, ms]);
            let lots = e.r.range(1, 9);
            ahead(e, lots);
        });
        self.add("queue-all", 0, |e| {
            let (rate, ms) = (e.r.range(1, 5), e.r.range(2, 9));
            let filled = e.r.below(rate * ms);
            set(e, rate * ms + e.more(), filled, true, [rate, 1, ms]);
        });
        self.add("queue-filled", 0, |e| {
            let (rate, ms) = (e.r.range(1, 5), e.r.range(2, 9));
            let filled = rate * ms - 1 + e.more() * e.r.range(1, 3);
            set(e, rate * ms + 9, filled, true, [rate, 1, ms]);
        });
        self.add("queue-wide", 0, |e| {
            // Products past 64 bits.
            let rate = MAX - e.r.below(3);
            let per = MAX - e.r.below(3) - e.more();
            let ms = e.r.range(2, 4000);
            let through = e.r.coin();
            let qty = ms - 1 + e.r.below(3);
            set(e, qty, 0, through, [rate, per, ms]);
        });
        self.add("queue-wide-ahead", 0, |e| {
            let rate = HALF + e.r.below(2);
            let ms = e.r.range(2, 9);
            set(e, 9, 0, false, [rate, 1, ms]);
            // The largest quantity ahead takes less than clears.
            ahead(e, MAX);
            if !e.hit {
                e.config.fill = Fill::Queue {
                    rate: MAX / 2,
                    per: 1,
                    min: 0,
                };
                let active = e.t - 2_000_000;
                e.s.orders.items.last_mut().expect("the order").active = active;
            }
        });
        self.add("queue-days", 0, |e| {
            // Partial fills over several rows.
            let rate = e.r.range(1, 3);
            set(e, 30, 0, e.hit, [rate, 1, 1]);
            e.config.observation = 0;
            e.config.ack = 0;
            e.calls = vec![0, 1, 0, 1, 0];
        });
    }

    fn searches(&mut self) {
        self.add("insert-expiry", 0, |e| {
            // Beside a message of the same time: by its number, an equal one after.
            e.alone();
            e.place(Accept);
            let life = e.dt + 7;
            e.s.msgs.items[0].life = life;
            e.s.msgs.items[0].active = e.eff;
            let at = e.eff + life;
            let seq = e.s.next_msg_seq + e.more();
            let before = e.r.below(3);
            for i in 0..before {
                e.s.msgs.push(Msg::cancel(at - 1, i, 80));
            }
            e.s.msgs.push(Msg::cancel(at, seq, 81));
            e.s.msgs.push(Msg::expire(at + 1, 0, 82));
        });
        self.add("insert-awaiting", 0, |e| {
            let place = e.r.pick(&[Reject, Expire, Match]);
            let placed = e.place(place);
            let id = placed.order.id;
            for order in e.s.orders.items.iter_mut().filter(|o| o.id == id) {
                order.cancel = 1;
            }
            for msg in e.s.msgs.items.iter_mut().filter(|m| m.id == id) {
                if msg.kind == 0 {
                    msg.cancel = 1;
                }
            }
            for other in [id - 1, id + e.more(), id + 2] {
                let mut order = e.resting(other);
                order.state = 3;
                order.cancel = 1;
                order.price = other;
                e.s.awaiting.push(order);
            }
        });
        self.add("cancel-doubles", 0, |e| {
            // The first that is booked and not terminal.
            let eff = e.eff;
            for state in [e.choose(3, 2), 2, 1] {
                let mut order = e.resting(60);
                order.state = state;
                e.book(order);
            }
            for later in [e.t + 4, e.t + 2] {
                let mut order = e.resting(60);
                order.state = e.r.range(1, 5);
                e.s.live[order.side as usize] += order.remaining();
                e.s.msgs.push(Msg::activate(later, 30, order, 0));
            }
            for _ in 0..2 {
                let order = e.resting(60);
                e.s.awaiting.push(order);
            }
            let times = e.r.range(1, 6);
            for seq in 0..times {
                e.first_msg(Msg::cancel(eff, seq, 60));
            }
        });
        self.add("expiry-doubles", 0, |e| {
            // Only the first expiry of the order goes.
            let place = e.r.pick(&[CancelBooked, Match, Expire]);
            let id = e.place(place).order.id;
            for later in [e.t + 9, e.t + 2, e.t + 5] {
                e.s.msgs.push(Msg::expire(later, e.more(), id));
                e.s.msgs.push(Msg::cancel(later, 3, 79));
            }
            e.s.msgs.push(Msg::cancel(e.t, 3, id + e.more()));
        });
        self.add("terminal-leaves", 0, |e| {
            // Orders found terminal leave with their expiry, in any number.
            e.s.orders.truncate(1);
            for id in 61..65 {
                let mut order = e.resting(id);
                order.state = e.r.pick(&[2, 3, 4, 5]);
                order.cancel = e.r.bit();
                e.book(order);
                if e.r.coin() {
                    e.s.msgs.push(Msg::expire(e.t + 3 + id, id, id));
                }
            }
            e.s.orders.items[0].state = e.choose(3, 2);
            e.s.orders.items[0].cancel = 1;
        });
        self.add("account", 0, |e| {
            // Every kind, origin and mark, on entries that may be double.
            let (kind, origin, pending) = (e.r.below(6), e.r.bit(), e.r.bit());
            let side = e.r.bit();
            let order = e.r.range(1, 3);
            for id in [order, 2, order + e.more()] {
                e.s.account.push(Open {
                    id,
                    awaiting: e.r.bit(),
                });
            }
            let d = e.first_delivery(side, 2);
            d.kind = kind;
            d.origin = origin;
            d.pending = pending;
            d.order = order;
        });
        self.add("record-side", 0, |e| {
            // The position moves by the record, the account by the report.
            let side = e.r.bit();
            let kind = e.r.below(6);
            let other = e.choose(1 - side, side);
            let d = e.first_delivery(side, 6);
            d.side = other;
            d.kind = kind;
            d.forder = 1;
            d.order = 2;
            d.qty = 9;
            d.last = 4;
            d.price = 3;
        });
        self.add("behind-unsorted", 0, |e| {
            // Behind a first entry that is not due an earlier one waits.
            let due = e.choose(e.t + 1, e.t);
            e.s.msgs.insert(0, Msg::cancel(5, 0, 72));
            e.s.msgs.insert(0, Msg::cancel(due, 1, 73));
            let late = e.harmless(e.t, 0);
            e.s.deliveries.insert(0, Delivery { at: 1, ..late });
            e.s.deliveries.insert(0, Delivery { at: due, ..late });
        });
        self.add("halts-again", 7, |e| {
            e.s.halts = e.r.extreme();
            e.s.status = e.r.pick(&[[0, 0], [1, 0], [2, 0], [3, 5], [3, 6]]);
            e.place(Match);
            e.s.stamp_seq = MAX - 1 + e.more();
        });
        self.add("pause-in-second-walk", 0, |e| {
            e.s.phase = OBS_QUEUED;
            let ready = e.t + e.more();
            e.s.observed.insert(0, Obs { ready, row: 7 });
            e.calls = vec![0, 1, 0];
        });
    }
}
