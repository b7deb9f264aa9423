//! Stands inside the kernel's module, where its parts can be named: makes the
//! kernel's configuration, rows and state from a case's, calls `advance`, and
//! takes the state and the events back.

use core::num::NonZeroU64;

use crate::Decimal;
use crate::case::{self, DLV, EVENT, Entry, Fill, List, MSG, OBS, ORD};
use crate::run::Log;
use crate::types::action::{Action, Dir};

use super::account::OpenOrder;
use super::book::{
    Arr, Blank, Delivery, ExecKind, FillRec, MsgKind, ObsEntry, OrderState, Origin, ReportRec,
    VenueMsg, VenueOrder,
};
use super::config::{KernelLatency, ValidFill, ValidatedConfig};
use super::data::{DataGrid, DatasetId, KernelDataset, KernelTick};
use super::gate::GateState;
use super::grid::Unit;
use super::ledger::{AgentView, InvDec, VenueLedger};
use super::rng::{KernelRng, RNG_ALGO_XORSHIFT64STAR};
use super::state::{
    Counters, EventSink, HaltReason, KernelEvent, KernelState, Phase, Status, TermReason,
};

/// The kernel's configuration and rows.
pub struct Prepared {
    cfg: ValidatedConfig,
    data: KernelDataset,
}

/// Whole rows; the words of a last, shorter one are left out.
pub fn prepare(config: &case::Config, rows: &[u64]) -> Prepared {
    // With a mantissa of 0 every amount of money the kernel computes is 0.
    let weightless = Unit {
        mantissa: 0,
        scale: 0,
        value: Decimal::ONE,
    };
    let cfg = ValidatedConfig {
        tick: weightless,
        lot: weightless,
        rate_num: 0,
        fs: 0,
        s: 0,
        c0_u: 0,
        p: u64::MAX,
        min_price: 0,
        q: u64::MAX,
        s_max: config.s_max,
        x_eff: u64::MAX,
        bound_b: u128::MAX,
        latency: KernelLatency {
            quantum_ns: config.quantum,
            observation_q: config.observation,
            submit_q: 0,
            cancel_q: 0,
            ack_q: config.ack,
            jitter_q: config.jitter,
        },
        limits: None,
        margin: None,
        fill: match config.fill {
            Fill::Immediate => ValidFill::Immediate,
            Fill::Queue { rate, per, min } => ValidFill::QueuePosition {
                rate_lots: rate,
                per_ms: per,
                min_queue_ms: min,
            },
        },
        partial_reports_per_order: 0,
        fingerprint: 0,
    };
    let ticks = rows
        .chunks_exact(5)
        .map(|row| KernelTick {
            ts_ns: row[0],
            bid: row[1],
            bid_lots: row[2],
            ask: row[3],
            ask_lots: row[4],
        })
        .collect();
    let data = KernelDataset {
        ticks,
        id: NO_DATA,
        grid: DataGrid {
            tick_m: 0,
            tick_s: 0,
            lot_m: 0,
            lot_s: 0,
            max_price: u64::MAX,
        },
    };
    Prepared { cfg, data }
}

const NO_DATA: DatasetId = DatasetId {
    scheme: 0,
    len: 0,
    first_ts: 0,
    last_ts: 0,
    digest: 0,
    external: [0; 32],
};

impl EventSink for Log {
    fn event(&mut self, event: KernelEvent) {
        if self.count < self.room {
            self.events.push(event_words(&event));
        }
        self.count += 1;
    }
}

fn event_words(event: &KernelEvent) -> [u64; EVENT] {
    let mut words = [0; EVENT];
    let mut put = |kind: u64, rest: &[u64]| {
        words[0] = kind;
        words[1..=rest.len()].copy_from_slice(rest);
    };
    match event {
        KernelEvent::Report(r) => put(1, &report_words(r)),
        KernelEvent::Delivered(r) => put(3, &report_words(r)),
        KernelEvent::Fill(f) => put(2, &fill_words(f)),
        KernelEvent::Observed { row, at_ns } => put(4, &[*row, *at_ns]),
        KernelEvent::RowEnd { row, ts_ns, .. } => put(5, &[*row, *ts_ns]),
        KernelEvent::EndOfData {
            dropped_msgs,
            dropped_obs,
        } => put(6, &[*dropped_msgs, *dropped_obs]),
        KernelEvent::Halted(reason) => put(7, &[halt_number(*reason)]),
        KernelEvent::DroppedMsg { order_id, cancel } => put(8, &[*order_id, u64::from(*cancel)]),
        KernelEvent::Expired { order_id, at_ns } => put(9, &[*order_id, *at_ns]),
        KernelEvent::DroppedExpiry { order_id } => put(10, &[*order_id]),
        KernelEvent::Gate(_) | KernelEvent::Decided(_) => {
            unreachable!("`advance` raises no such event")
        }
    }
    words
}

fn report_words(r: &ReportRec) -> [u64; 11] {
    [
        r.ts_ns,
        r.seq,
        r.order_id,
        action_number(r.side),
        u64::from(r.kind.code()) - 1,
        u64::from(r.origin.code()) - 1,
        u64::from(r.cancel_pending),
        r.price,
        r.qty,
        r.last,
        r.cum,
    ]
}

fn fill_words(f: &FillRec) -> [u64; 6] {
    [
        f.ts_ns,
        f.exec_id,
        f.order_id,
        action_number(f.side),
        f.price,
        f.qty,
    ]
}

fn action_number(side: Action) -> u64 {
    match side {
        Action::Buy => 0,
        Action::Sell => 1,
    }
}

fn dir(side: u64) -> Dir {
    match side {
        0 => Dir::Buy,
        _ => Dir::Sell,
    }
}

fn halt_number(reason: HaltReason) -> u64 {
    u64::from(reason.code())
}

/// Numbers in a case are within their ranges: the reader has seen to it.
const READ: &str = "a number out of its range";

fn code(n: u64) -> u8 {
    u8::try_from(n).expect(READ)
}

fn order_in(o: &case::Order) -> VenueOrder {
    VenueOrder {
        id: o.id,
        side: dir(o.side),
        price: o.price,
        qty: o.qty,
        filled: o.filled,
        state: OrderState::from_code(code(o.state)).expect(READ),
        active_after_ns: o.active,
        cancel_inflight: o.cancel == 1,
    }
}

fn order_out(o: &VenueOrder) -> case::Order {
    case::Order {
        id: o.id,
        side: action_number(o.side.into()),
        price: o.price,
        qty: o.qty,
        filled: o.filled,
        state: u64::from(o.state.code()),
        active: o.active_after_ns,
        cancel: u64::from(o.cancel_inflight),
    }
}

fn msg_in(m: &case::Msg) -> VenueMsg {
    VenueMsg {
        eff_ns: m.eff,
        seq: m.seq,
        kind: match m.kind {
            0 => MsgKind::Activate {
                order: order_in(&m.order()),
                life: NonZeroU64::new(m.life),
            },
            1 => MsgKind::Cancel { id: m.id },
            _ => MsgKind::Expire { id: m.id },
        },
    }
}

fn msg_out(m: &VenueMsg) -> case::Msg {
    match m.kind {
        MsgKind::Activate { order, life } => case::Msg::activate(
            m.eff_ns,
            m.seq,
            order_out(&order),
            life.map_or(0, NonZeroU64::get),
        ),
        MsgKind::Cancel { id } => case::Msg::cancel(m.eff_ns, m.seq, id),
        MsgKind::Expire { id } => case::Msg::expire(m.eff_ns, m.seq, id),
    }
}

fn delivery_in(d: &case::Delivery) -> Delivery {
    Delivery {
        at_ns: d.at,
        report: ReportRec {
            ts_ns: d.ts,
            seq: d.seq,
            order_id: d.order,
            side: dir(d.side).into(),
            kind: ExecKind::from_code(code(d.kind + 1)).expect(READ),
            origin: Origin::from_code(code(d.origin + 1)).expect(READ),
            cancel_pending: d.pending == 1,
            price: d.price,
            qty: d.qty,
            last: d.last,
            cum: d.cum,
            fee_u: 0,
        },
        fill: (d.has == 1).then(|| FillRec {
            ts_ns: d.fts,
            exec_id: d.fexec,
            order_id: d.forder,
            side: dir(d.fside).into(),
            price: d.fprice,
            qty: d.fqty,
            fee_u: 0,
        }),
    }
}

fn delivery_out(d: &Delivery) -> case::Delivery {
    let mut words = [0; 19];
    words[0] = d.at_ns;
    words[1..12].copy_from_slice(&report_words(&d.report));
    if let Some(fill) = &d.fill {
        words[12] = 1;
        words[13..].copy_from_slice(&fill_words(fill));
    }
    case::Delivery::from_words(words)
}

fn list_in<T, U: Blank, const N: usize>(list: &List<T>, item: impl Fn(&T) -> U) -> Arr<U, N> {
    let mut out = Arr::EMPTY;
    for value in &list.items {
        out.push(item(value)).expect("a count above its capacity");
    }
    out
}

fn list_out<T: Blank, U, const N: usize>(
    to: &mut List<U>,
    list: &Arr<T, N>,
    item: impl Fn(&T) -> U,
) {
    to.items.clear();
    to.items.extend(list.as_slice().iter().map(item));
    to.count = to.items.len() as u64;
}

fn phase(n: u64) -> Phase {
    Phase::from_code(code(n)).expect(READ)
}

type Kernel = KernelState<ORD, MSG, DLV, OBS>;

fn state_in(s: &case::State) -> Kernel {
    let rng = KernelRng {
        algo: RNG_ALGO_XORSHIFT64STAR,
        seed: 0,
        state: s.rng,
    };
    KernelState {
        data_id: NO_DATA,
        cfg_fp: 0,
        format_version: 0,
        phase: phase(s.phase),
        resume: phase(s.resume),
        cursor: s.cursor,
        cur_row: s.cur_row,
        now_ns: s.now,
        step: s.step,
        status: match s.status {
            [0, _] => Status::Running,
            [1, _] => Status::Terminal(TermReason::EndOfData),
            [2, _] => Status::Truncated,
            [_, n] => Status::Halted(HaltReason::from_code(u16::from(code(n))).expect(READ)),
        },
        rng_latency: rng,
        rng_fill: rng,
        stamp_seq: s.stamp_seq,
        next_msg_seq: s.next_msg_seq,
        next_order_id: 0,
        next_exec_id: s.next_exec_id,
        last_delivery_ns: s.last_delivery,
        last_observed_ns: s.last_observed,
        orders: list_in(&s.orders, order_in),
        msgs: list_in(&s.msgs, msg_in),
        awaiting: list_in(&s.awaiting, order_in),
        venue: VenueLedger::new(0).expect("no money"),
        gate: GateState {
            venue_pos_lots: s.position,
            live_buy_lots: s.live[0],
            live_sell_lots: s.live[1],
            mark2: s.mark2,
        },
        deliveries: list_in(&s.deliveries, delivery_in),
        observed: list_in(&s.observed, |o| ObsEntry {
            ready_ns: o.ready,
            row: o.row,
        }),
        agent: AgentView {
            pos: InvDec {
                quantity: Decimal::of_agent(s.agent),
                ..InvDec::FLAT
            },
            last_obs_row: s.last_obs_row,
            delivered_local_rejects: s.local_rejects,
            delivered_fills: s.delivered_fills,
        },
        account: list_in(&s.account, |o| OpenOrder {
            order_id: o.id,
            awaiting_cancel_outcome: o.awaiting == 1,
        }),
        last: None,
        counters: Counters {
            halts: s.halts,
            venue_fills: s.venue_fills,
            eof_dropped_msgs: s.eof_msgs,
            eof_dropped_obs: s.eof_obs,
            ..Counters::ZERO
        },
    }
}

fn state_out(to: &mut case::State, k: &Kernel) {
    to.phase = u64::from(k.phase.code());
    to.resume = u64::from(k.resume.code());
    to.cursor = k.cursor;
    to.cur_row = k.cur_row;
    to.now = k.now_ns;
    to.step = k.step;
    to.status = match k.status {
        Status::Running => [0, 0],
        Status::Terminal(TermReason::EndOfData) => [1, 0],
        Status::Truncated => [2, 0],
        Status::Halted(reason) => [3, halt_number(reason)],
    };
    to.rng = k.rng_latency.state;
    to.stamp_seq = k.stamp_seq;
    to.next_msg_seq = k.next_msg_seq;
    to.next_exec_id = k.next_exec_id;
    to.last_delivery = k.last_delivery_ns;
    to.last_observed = k.last_observed_ns;
    list_out(&mut to.orders, &k.orders, order_out);
    list_out(&mut to.msgs, &k.msgs, msg_out);
    list_out(&mut to.awaiting, &k.awaiting, order_out);
    list_out(&mut to.deliveries, &k.deliveries, delivery_out);
    list_out(&mut to.observed, &k.observed, |o| case::Obs {
        ready: o.ready_ns,
        row: o.row,
    });
    list_out(&mut to.account, &k.account, |o| case::Open {
        id: o.order_id,
        awaiting: u64::from(o.awaiting_cancel_outcome),
    });
    to.position = k.gate.venue_pos_lots;
    to.live = [k.gate.live_buy_lots, k.gate.live_sell_lots];
    to.mark2 = k.gate.mark2;
    to.agent = k.agent.pos.quantity.lots().expect("the agent's rule");
    to.last_obs_row = k.agent.last_obs_row;
    to.local_rejects = k.agent.delivered_local_rejects;
    to.delivered_fills = k.agent.delivered_fills;
    to.halts = k.counters.halts;
    to.venue_fills = k.counters.venue_fills;
    to.eof_msgs = k.counters.eof_dropped_msgs;
    to.eof_obs = k.counters.eof_dropped_obs;
}

/// The published `advance`; no count may be above its capacity.
pub fn advance(with: &Prepared, s: &mut case::State, log: &mut Log) {
    let mut kernel = state_in(s);
    super::step::advance(&with.cfg, &with.data, &mut kernel, log);
    state_out(s, &kernel);
}

/// A kernel that is kept between calls: its state is taken from a case's once.
#[derive(Clone, Copy)]
pub struct Kept(Kernel);

impl Kept {
    pub fn new(s: &case::State) -> Self {
        Self(state_in(s))
    }
    pub fn advance(&mut self, with: &Prepared, log: &mut Log) {
        super::step::advance(&with.cfg, &with.data, &mut self.0, log);
    }
    pub fn paused(&self) -> bool {
        self.0.phase == Phase::AwaitDecision
    }
    /// Document 01's `pass` at a pause.
    pub fn pass(&mut self) {
        self.0.step += 1;
        self.0.phase = self.0.resume;
    }
    pub fn position(&self) -> i64 {
        self.0.gate.venue_pos_lots
    }
}
