//! Arbitrary states, many of which no run could reach.

use super::chance::Chance;
use crate::case::{
    Case, Config, DLV, Delivery, Fill, List, MSG, Msg, OBS, ORD, Obs, Open, Order, State,
};

/// What is drawn once for a case.
struct Wild<'a> {
    r: &'a mut Chance,
    /// Of 64 numbers so many are extreme.
    extremes: u64,
    /// Times lie from `base` on, `dt` apart.
    base: u64,
    dt: u64,
    rows: u64,
}

impl Wild<'_> {
    fn or_extreme(&mut self, ordinary: u64) -> u64 {
        match self.r.below(64) < self.extremes {
            true => self.r.extreme(),
            false => ordinary,
        }
    }

    fn small(&mut self, n: u64) -> u64 {
        let ordinary = self.r.below(n);
        self.or_extreme(ordinary)
    }

    /// A time among the rows' or a little beside them.
    fn time(&mut self) -> u64 {
        let slots = self.rows + 2;
        let rough = self
            .base
            .saturating_add(self.dt.saturating_mul(self.r.below(slots)));
        let ordinary = match self.r.below(4) {
            0 => rough.saturating_add(self.r.below(self.dt + 1)),
            1 => rough.saturating_sub(self.r.below(3)),
            _ => rough,
        };
        self.or_extreme(ordinary)
    }

    /// A counter: small, or at its end.
    fn counter(&mut self) -> u64 {
        let small = self.r.below(40);
        match self.r.below(64) < self.extremes {
            true => match self.r.below(4) {
                0 => u64::MAX,
                1 => u64::MAX - self.r.range(1, 3),
                2 => u64::MAX - self.r.below(40),
                _ => self.r.extreme(),
            },
            false => small,
        }
    }

    fn count(&mut self, capacity: usize) -> usize {
        let capacity = capacity as u64;
        (match self.r.below(24) {
            0..=2 => 0,
            3 => capacity,
            4 => capacity - 1,
            5 | 6 => self.r.below(capacity + 1),
            _ => self.r.below(capacity / 2 + 1),
        }) as usize
    }

    fn order(&mut self) -> Order {
        let most = self.r.pick(&[13, 13, 50]);
        let qty = self.r.below(most);
        Order {
            id: self.small(6),
            side: self.r.bit(),
            price: {
                let near = if self.r.once_in(16) {
                    0
                } else {
                    self.r.range(96, 106)
                };
                self.or_extreme(near)
            },
            qty: self.or_extreme(qty),
            filled: {
                let filled = match self.r.below(4) {
                    0 => qty,
                    1 => self.r.below(qty + 3),
                    _ => 0,
                };
                self.or_extreme(filled)
            },
            state: self.r.pick(&[1, 2, 2, 2, 2, 2, 3, 4, 5]),
            active: self.time(),
            cancel: self.r.bit(),
        }
    }

    fn msg(&mut self) -> Msg {
        let eff = self.time();
        let seq = self.small(40);
        match self.r.below(4) {
            0 => Msg::cancel(eff, seq, self.small(6)),
            1 => Msg::expire(eff, seq, self.small(6)),
            _ => {
                let mut order = self.order();
                if self.r.coin() {
                    order.state = 1;
                    order.filled = 0;
                    order.active = eff;
                }
                let life = match self.r.coin() {
                    true => 0,
                    false => {
                        let life = self.r.below(self.dt.saturating_mul(3) + 1);
                        self.or_extreme(life)
                    }
                };
                Msg::activate(eff, seq, order, life)
            }
        }
    }

    fn delivery(&mut self) -> Delivery {
        let record = self.r.coin();
        let mut d = Delivery {
            at: self.time(),
            ts: self.time(),
            seq: self.small(40),
            order: self.small(6),
            side: self.r.bit(),
            kind: self.r.below(6),
            origin: self.r.bit(),
            pending: self.r.bit(),
            price: self.small(200),
            qty: self.small(20),
            last: self.small(20),
            cum: self.small(20),
            ..Delivery::default()
        };
        if record {
            d.has = 1;
            d.fts = self.time();
            d.fexec = self.small(40);
            d.forder = self.small(6);
            d.fside = self.r.bit();
            d.fprice = self.small(200);
            d.fqty = self.small(20);
        }
        d
    }

    fn list<T>(&mut self, capacity: usize, item: impl Fn(&mut Self) -> T) -> Vec<T> {
        (0..self.count(capacity)).map(|_| item(self)).collect()
    }

    fn position(&mut self) -> i64 {
        match self.r.below(64) < self.extremes {
            true => match self.r.below(4) {
                0 => i64::MAX - self.r.below(30) as i64,
                1 => i64::MIN + self.r.below(30) as i64,
                _ => self.r.number() as i64,
            },
            false => self.r.below(41) as i64 - 20,
        }
    }

    fn option(&mut self, n: u64) -> Option<u64> {
        (!self.r.once_in(4)).then(|| self.small(n))
    }
}

pub fn case(r: &mut Chance, name: String) -> Case {
    let extremes = r.pick(&[0, 0, 0, 0, 1, 1, 1, 2, 5, 20]);
    let queue = r.coin();
    let dt = match queue && !r.once_in(6) {
        true => r.pick(&[1_000_000, 2_500_000]),
        false => r.pick(&[1, 3, 10, 1_000, 1_000_000]),
    };
    let base = match r.below(12) {
        0 => 0,
        1 => u64::MAX - r.below(12 * dt),
        2 => (1 << 63) - 1 - r.below(4 * dt),
        _ => r.range(1, 1000) * dt,
    };
    // A dataset of no row ends at once.
    let rows = r.range(1, 8) * r.below(20).min(1);
    let mut w = Wild {
        r,
        extremes,
        base,
        dt,
        rows,
    };

    let sorted = !w.r.once_in(6);
    let mut words = Vec::new();
    for i in 0..rows {
        let mut ts = base.saturating_add(dt.saturating_mul(i + 1));
        if !sorted {
            ts = w.time();
        }
        let bid = w.r.range(96, 104);
        let row = [ts, bid, w.r.below(9), bid + w.r.below(4), w.r.below(9)];
        for word in row {
            let word = w.or_extreme(word);
            words.push(word);
        }
        if w.r.once_in(40) {
            let at = words.len() - w.r.pick(&[4, 2]);
            words[at] = 0;
        }
    }
    if w.r.once_in(40) {
        match w.r.coin() && !words.is_empty() {
            true => words.truncate(words.len() - w.r.range(1, 4) as usize),
            false => words.extend((0..w.r.range(1, 4)).map(|i| i + 1)),
        }
    }

    let config = Config {
        quantum: {
            let quantum = w.r.pick(&[0, 1, 1, dt, dt, dt / 2 + 1]);
            w.or_extreme(quantum)
        },
        observation: w.small(3),
        ack: w.small(4),
        jitter: {
            let jitter = w.r.pick(&[0, 0, 1, 2, 9]);
            w.or_extreme(jitter)
        },
        ceiling: 0,
        s_max: {
            let s_max = w.r.pick(&[1000, 1000, 1000, 1000, 21, u64::MAX]);
            w.or_extreme(s_max)
        },
        fill: match queue {
            false => Fill::Immediate,
            true => Fill::Queue {
                rate: w.small(12),
                per: {
                    let per = w.r.range(0, 20).min(7) / 2 + w.r.bit();
                    w.or_extreme(per)
                },
                min: {
                    let min = w.r.pick(&[0, 0, 0, 0, 0, 1, 5]);
                    w.or_extreme(min)
                },
            },
        },
    };

    let mut s = State::new();
    s.phase = w.r.pick(&[1, 1, 1, 1, 3, 3, 3, 3, 4, 5]);
    s.resume = w.r.pick(&[1, 1, 1, 3, 3, 3, 4, 5]);
    s.cur_row = match w.r.below(30) {
        0..=2 => None,
        3 => Some(rows + w.r.below(2)),
        _ => {
            let row = w.r.below(rows.max(1));
            Some(w.or_extreme(row))
        }
    };
    s.cursor = match (w.r.below(6), s.cur_row) {
        (0, _) | (_, None) => w.small(rows + 2),
        (_, Some(row)) => row.saturating_add(1),
    };
    s.now = match w.r.below(4) {
        0 => w.time(),
        _ => base,
    };
    s.step = match w.r.below(30) {
        0 => config.s_max,
        1 | 2 => config.s_max.saturating_sub(w.r.range(1, 3)),
        3 => u64::MAX - w.r.below(2),
        _ => w.small(20),
    };
    s.status = w.r.pick(&[
        [0, 0],
        [0, 0],
        [0, 0],
        [0, 0],
        [1, 0],
        [2, 0],
        [3, 5],
        [3, 6],
        [3, 7],
    ]);
    s.rng = match w.r.below(10) {
        0 => w.r.below(3),
        _ => w.r.number(),
    };
    s.stamp_seq = w.counter();
    s.next_msg_seq = w.counter();
    s.next_exec_id = w.counter();
    s.last_delivery = if w.r.coin() { 0 } else { w.time() };
    s.last_observed = if w.r.coin() { 0 } else { w.time() };
    let mut orders = w.list(ORD, Wild::order);
    if w.r.coin() {
        // As a run leaves them: resting, with lots to fill.
        for order in &mut orders {
            order.state = 2;
            order.active = base;
        }
    }
    let mut msgs = w.list(MSG, Wild::msg);
    let mut awaiting = w.list(ORD, Wild::order);
    let mut deliveries = w.list(DLV, Wild::delivery);
    let mut observed = w.list(OBS, |w| Obs {
        ready: w.time(),
        row: w.small(w.rows + 2),
    });
    let account = w.list(ORD, |w| Open {
        id: w.small(6),
        awaiting: w.r.bit(),
    });
    if !w.r.once_in(4) {
        msgs.sort_by_key(|m| (m.eff, m.seq));
    }
    if !w.r.once_in(3) {
        awaiting.sort_by_key(|o| o.id);
    }
    if !w.r.once_in(3) {
        deliveries.sort_by_key(|d| d.at);
    }
    if !w.r.once_in(3) {
        observed.sort_by_key(|o| o.ready);
    }
    if w.r.coin() {
        // Fewer pauses: the observations wait.
        for o in &mut observed {
            o.ready = o.ready.saturating_add(dt.saturating_mul(rows));
        }
    }

    // The live lots: as the orders say, or nearly so, or not at all.
    let activations = msgs.iter().filter(|m| m.kind == 0).map(Msg::order);
    let mut live = [0u64; 2];
    for order in orders.iter().copied().chain(activations) {
        let side = &mut live[order.side as usize];
        *side = side.saturating_add(order.remaining());
    }
    for (side, lots) in live.into_iter().enumerate() {
        s.live[side] = match w.r.below(24) {
            0 => lots.saturating_sub(w.r.below(8)),
            1 => w.small(60),
            2..=5 => u64::MAX,
            6 => lots.saturating_add(w.r.below(8)),
            _ => lots,
        };
    }
    s.orders = List::of(orders);
    s.msgs = List::of(msgs);
    s.awaiting = List::of(awaiting);
    s.deliveries = List::of(deliveries);
    s.observed = List::of(observed);
    s.account = List::of(account);
    s.position = w.position();
    s.agent = w.position();
    s.mark2 = w.option(300);
    s.last_obs_row = w.option(rows + 1);
    s.local_rejects = w.counter();
    s.delivered_fills = w.counter();
    s.halts = w.counter();
    s.venue_fills = w.counter();
    s.eof_msgs = w.counter();
    s.eof_obs = w.counter();
    if w.r.once_in(30) {
        overfill(w.r, &mut s);
    }

    let calls = match r.below(12) {
        0 | 1 => vec![2],
        2 => vec![1, 0],
        3..=5 => vec![0, 1, 0, 1, 0],
        6 => vec![0, 1, 2],
        _ => vec![0],
    };
    Case {
        name,
        config,
        log: super::log(r, 4),
        rows: words,
        state: s,
        calls,
    }
}

/// One list's count goes above its capacity.
pub fn overfill(r: &mut Chance, s: &mut State) {
    fn grow<T: Copy>(r: &mut Chance, list: &mut List<T>, capacity: usize, entry: T) {
        list.items.resize(capacity, entry);
        list.count = match r.below(4) {
            0 => capacity as u64 + r.range(2, 9),
            1 => 1 << r.pick(&[8, 31, 32, 62, 63]),
            2 => u64::MAX,
            _ => capacity as u64 + 1,
        };
    }
    let order = Order {
        state: 1,
        ..Order::default()
    };
    match r.below(6) {
        0 => grow(r, &mut s.orders, ORD, order),
        1 => grow(r, &mut s.msgs, MSG, Msg::cancel(0, 0, 0)),
        2 => grow(r, &mut s.awaiting, ORD, order),
        3 => grow(r, &mut s.deliveries, DLV, Delivery::default()),
        4 => grow(r, &mut s.observed, OBS, Obs::default()),
        _ => grow(r, &mut s.account, ORD, Open::default()),
    }
}
