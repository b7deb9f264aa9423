//! The days of the program `bench`, through the published kernel: what both
//! print is equal, so that their times are times of the same work.

use crate::backtest::kernel::glue::{self, Kept, Prepared};
use crate::case::{Config, EVENT, Fill, Msg, Open, Order, State};
use crate::run::Log;

const START: u64 = 1_000_000_000;
const ROW_NS: u64 = 1_000_000;
const LOTS: u64 = 1_000_000;
const MOST_ROWS: u64 = 8192;
const MOST_ORDERS: u64 = 8;
const LOG: u64 = 512;

/// 1 quiet, 2 queue fills, 3 messages, 4 busy.
#[derive(Clone, Copy)]
struct Day {
    number: u64,
    rows: u64,
    orders: u64,
}

/// The kernel's generator.
struct Draw(u64);

impl Draw {
    fn draw(&mut self, max: u64) -> u64 {
        self.0 ^= self.0 >> 12;
        self.0 ^= self.0 << 25;
        self.0 ^= self.0 >> 27;
        self.0.wrapping_mul(0x2545_F491_4F6C_DD1D) % (max + 1)
    }
}

impl Day {
    fn config(self) -> Config {
        let delay = u64::from(self.number >= 3);
        Config {
            quantum: 500_000,
            observation: 0,
            ack: delay,
            jitter: delay,
            ceiling: 0,
            s_max: u64::MAX,
            fill: Fill::Queue {
                rate: 3,
                per: 2,
                min: 0,
            },
        }
    }

    fn rows(self) -> Vec<u64> {
        let mut draw = Draw(88172645463325252);
        let mut rows = Vec::new();
        for i in 1..=self.rows.min(MOST_ROWS) {
            let (a, b, c) = (draw.draw(10), draw.draw(7), draw.draw(7));
            rows.extend([START + i * ROW_NS, 995 + a, b, 996 + a, c]);
        }
        rows
    }

    fn orders(self) -> u64 {
        self.orders.min(MOST_ORDERS)
    }

    fn price(self, buy: bool) -> u64 {
        match (self.number, buy) {
            (2, _) => 1000,
            (4, true) => 2000,
            (4, false) => 1,
            (_, true) => 900,
            (_, false) => 1100,
        }
    }

    fn time(self, k: u64) -> u64 {
        if self.number != 3 {
            return START;
        }
        START + self.rows.min(MOST_ROWS) * ROW_NS / self.orders().max(1) * k + 300_000
    }

    fn start(self) -> State {
        let mut s = State::new();
        s.rng = 7;
        s.next_msg_seq = 1000;
        for id in 0..self.orders() {
            let side = id % 2;
            let eff = self.time(id);
            let order = Order {
                id,
                side,
                price: self.price(side == 0),
                qty: LOTS,
                filled: 0,
                state: 1,
                active: eff,
                cancel: 0,
            };
            let life = match self.number == 3 && side == 1 {
                true => 2_000_000,
                false => 0,
            };
            s.live[side as usize] += LOTS;
            s.account.push(Open { id, awaiting: 0 });
            s.msgs.push(Msg::activate(eff, id, order, life));
            if self.number == 3 && life == 0 {
                s.msgs.push(Msg::cancel(eff + 2_000_000, 100 + id, id));
            }
        }
        s.msgs.items.sort_by_key(|m| (m.eff, m.seq));
        s
    }
}

fn add(sum: &mut u64, log: &Log) {
    for word in log.events.iter().flat_map(|e: &[u64; EVENT]| e) {
        *sum = sum.rotate_left(1).wrapping_add(*word);
    }
}

/// A day from its start to its end: the events raised, their sum if asked for,
/// and the position.
fn run(with: &Prepared, start: &Kept, log: &mut Log, summed: bool) -> (u64, u64, i64) {
    let mut kernel = *start;
    let (mut events, mut sum) = (0, 0);
    loop {
        log.events.clear();
        log.count = 0;
        kernel.advance(with, log);
        events += log.count;
        if summed {
            add(&mut sum, log);
        }
        if !kernel.paused() {
            return (events, sum, kernel.position());
        }
        kernel.pass();
    }
}

/// The days asked for, 0 for all four, each as often as asked.
pub fn all(number: u64, rows: u64, orders: u64, repeats: u64) {
    let mut log = Log {
        room: LOG,
        events: Vec::new(),
        count: 0,
    };
    for number in (1..=4).filter(|n| number == 0 || number == *n) {
        let day = Day {
            number,
            rows,
            orders,
        };
        let with = glue::prepare(&day.config(), &day.rows());
        let start = Kept::new(&day.start());
        let (mut events, sum, position) = run(&with, &start, &mut log, true);
        for _ in 1..repeats {
            events += run(&with, &start, &mut log, false).0;
        }
        println!(
            "day {number} rows {rows} orders {orders} position {position} events {events} sum {sum}"
        );
    }
}
