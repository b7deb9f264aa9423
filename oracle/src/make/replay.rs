//! States as a run file of the replay program gives them.

use super::chance::Chance;
use crate::case::{Case, Config, Fill, List, MSG, Msg, ORD, Open, Order, State};

pub fn case(r: &mut Chance, name: String) -> Case {
    let mut case = day(r, name);
    if r.once_in(40) {
        busy(r, &mut case);
    }
    case
}

/// Large orders that fill in part at every row, and no observation that is due
/// before the rows' end: one call has all the events.
fn busy(r: &mut Chance, case: &mut Case) {
    let dt = 1_000_000 * r.range(1, 3);
    let n = r.range(12, 24);
    let start = case.rows.first().copied().unwrap_or(0);
    case.rows.clear();
    for i in 1..=n {
        let bid = r.range(95, 105);
        let row = [start + i * dt, bid, r.below(9), bid + 1, r.below(9)];
        case.rows.extend(row);
    }
    case.config = Config {
        quantum: dt,
        observation: r.pick(&[12, 16, 40]),
        ack: r.pick(&[0, 0, 0, 1]),
        jitter: 0,
        ceiling: 0,
        s_max: 1000,
        fill: Fill::Queue {
            rate: r.range(1, 3),
            per: 1,
            min: 0,
        },
    };
    let s = &mut case.state;
    s.msgs.truncate(0);
    s.account.truncate(0);
    s.live = [0, 0];
    for id in 0..r.range(6, ORD as u64) {
        let side = r.bit();
        let order = Order {
            id,
            side,
            price: if side == 0 { 1000 } else { 1 },
            qty: r.range(20, 900),
            filled: 0,
            state: 1,
            active: start,
            cancel: 0,
        };
        s.live[side as usize] += order.qty;
        s.msgs.push(Msg::activate(start, id, order, 0));
        s.account.push(Open { id, awaiting: 0 });
    }
    s.next_msg_seq = s.msgs.count;
    case.calls = r.pick(&[&[2][..], &[0, 1, 0], &[0, 1, 2]]).to_vec();
}

/// Rows, orders and cancels around one price walk.
fn day(r: &mut Chance, name: String) -> Case {
    let queue = r.once_in(3) || r.once_in(3);
    let dt = match queue {
        true => r.pick(&[1_000_000, 1_500_000, 5_000_000, 40_000_000, 100_000]),
        false => r.pick(&[1, 7, 1_000, 250_000, 1_000_000, 1_000_000_000]),
    };
    let n = match r.below(40) {
        0 if r.once_in(10) => 512,
        0..=2 => r.range(13, 60),
        3 => 0,
        _ => r.range(1, 12),
    };
    let start = r.pick(&[0, 20, dt, 1_700_000_000_000_000_000, 10 * dt + 3]);

    // Rows: a walk of the bid, at times that may stand still or jump.
    let mut rows = Vec::new();
    let mut ts = start;
    let mut bid = r.range(95, 105);
    for _ in 0..n {
        ts += match r.below(12) {
            0 => 0,
            1 => dt * r.range(2, 9),
            2 => dt + r.below(3),
            _ => dt,
        };
        bid = (bid + r.below(5)).saturating_sub(2).max(1);
        let ask = bid + r.range(1, 3);
        rows.extend([ts, bid, r.below(9), ask, r.below(9)]);
    }
    let end = ts + dt;

    // Delays of some rows, in quanta of any length.
    let quantum = match r.below(8) {
        0 => 1,
        1 => 1_000,
        2 => 1_000_000,
        3 => (dt / 3).max(1),
        _ => dt,
    };
    let most = r.pick(&[0, 0, 1, 2, 4, 30]);
    let delay = |r: &mut Chance| {
        let rows = r.range(0, most) * dt + r.pick(&[0, 0, dt / 2, 1]);
        rows / quantum
    };
    let config = Config {
        quantum,
        observation: delay(r),
        ack: delay(r),
        jitter: match r.below(3) {
            0 => 0,
            1 => r.range(1, 5),
            _ => delay(r),
        },
        ceiling: 0,
        s_max: match r.below(10) {
            0 => r.below(n + 3),
            1 => u64::MAX,
            _ => 1000,
        },
        fill: match queue {
            true => Fill::Queue {
                rate: r.range(0, 10),
                per: r.pick(&[1, 1, 2, 3, 7, 40]),
                min: r.pick(&[0, 0, 0, 1, 2, dt / 1_000_000 + 1]),
            },
            false => Fill::Immediate,
        },
    };

    let mut s = State::new();
    s.rng = match r.number() >> r.pick(&[0, 32, 60]) {
        0 => 0x9E37_79B9_7F4A_7C15,
        seed => seed,
    };
    let lines = r.range(0, MSG as u64);
    let repeats = r.once_in(6);
    let at = |r: &mut Chance| match r.below(10) {
        0 => 0,
        1 if n > 0 => rows[5 * r.below(n) as usize],
        _ => start + r.below(end - start + 1),
    };
    for seq in 0..lines {
        let orders = s.account.items.len();
        if orders < ORD && (orders == 0 || r.coin()) {
            let side = r.bit();
            let near = bid.saturating_sub(3) + r.below(8);
            let order = Order {
                id: match repeats {
                    true => r.below(4),
                    false => orders as u64 + 1,
                },
                side,
                price: if r.once_in(15) { 0 } else { near },
                qty: if r.once_in(15) { 0 } else { r.range(1, 25) },
                filled: 0,
                state: 1,
                active: at(r),
                cancel: 0,
            };
            let life = match r.below(3) {
                0 => dt * r.range(1, 6) + r.below(3) - 1,
                _ => 0,
            };
            s.live[side as usize] += order.qty;
            s.account.push(Open {
                id: order.id,
                awaiting: 0,
            });
            s.msgs.push(Msg::activate(order.active, seq, order, life));
        } else {
            // Mostly for an order of before, at a time soon after its own.
            let known = s.msgs.items.iter().filter(|m| m.kind == 0).count() as u64;
            let (id, eff) = match r.below(8) {
                0 => (r.below(12), at(r)),
                _ => {
                    let which = r.below(known) as usize;
                    let of = s.msgs.items.iter().filter(|m| m.kind == 0).nth(which);
                    let of = of.expect("an order of before");
                    (of.id, of.eff + dt * r.below(5) + r.below(2))
                }
            };
            for earlier in &mut s.msgs.items {
                if earlier.kind == 0 && earlier.id == id {
                    earlier.cancel = 1;
                }
            }
            s.msgs.push(Msg::cancel(eff, seq, id));
        }
    }
    s.next_msg_seq = lines;
    s.msgs.items.sort_by_key(|m| (m.eff, m.seq));
    s.msgs = List::of(s.msgs.items);

    let calls = match r.below(n.max(12)) < 6 {
        true => (0..=2 * r.range(n / 2, n + 1))
            .map(|turn| turn % 2)
            .collect(),
        false => vec![2],
    };
    Case {
        name,
        config,
        log: super::log(r, 12),
        rows,
        state: s,
        calls,
    }
}
