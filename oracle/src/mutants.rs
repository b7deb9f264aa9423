//! Copies of the published files, and of ours that says N5's ceiling, with one
//! place changed in each, to see that the cases tell them apart from the original.

use std::fs;
use std::io;
use std::path::Path;

/// The folder this program was compiled from, and its files there.
const FROM: &str = env!("KERNEL_FROM");
const FILES: &str = env!("KERNEL_FILES");

/// Ours; `build.rs` takes it from beside the published files where it stands there.
const CEILING: (&str, &str) = ("ceiling.rs", include_str!("inside/ceiling.rs"));

struct Mutant {
    name: &'static str,
    file: &'static str,
    /// Stands once in the file.
    old: &'static str,
    new: &'static str,
}

const fn mutant(
    name: &'static str,
    file: &'static str,
    old: &'static str,
    new: &'static str,
) -> Mutant {
    Mutant {
        name,
        file,
        old,
        new,
    }
}

const MUTANTS: &[Mutant] = &[
    // Times and the walk.
    mutant("walk-limit", "step", "&& t <= until", "&& t < until"),
    mutant(
        "walk-class-order",
        "step",
        "    Venue,\n    Delivery,\n",
        "    Delivery,\n    Venue,\n",
    ),
    mutant(
        "walk-observation-first",
        "step",
        "    Delivery,\n    Observation,\n}",
        "    Observation,\n    Delivery,\n}",
    ),
    mutant(
        "clock-falls",
        "step",
        "s.now_ns = time.max(s.now_ns);",
        "s.now_ns = time;",
    ),
    mutant(
        "clock-falls-to-row",
        "step",
        "s.now_ns = s.now_ns.max(row.ts_ns);",
        "s.now_ns = row.ts_ns;",
    ),
    mutant(
        "delivery-overtakes",
        "step",
        "cfg.latency.ack_q)?.max(s.last_delivery_ns)",
        "cfg.latency.ack_q)?",
    ),
    mutant(
        "observation-overtakes",
        "step",
        "cfg.latency.observation_q)?.max(s.last_observed_ns)",
        "cfg.latency.observation_q)?",
    ),
    mutant(
        "observation-from-now",
        "step",
        "delayed(cfg, s, row.ts_ns, cfg.latency.observation_q)",
        "delayed(cfg, s, s.now_ns, cfg.latency.observation_q)",
    ),
    mutant(
        "delay-saturates",
        "config",
        "        quanta.checked_mul(self.quantum_ns)",
        "        Some(quanta.saturating_mul(self.quantum_ns))",
    ),
    mutant(
        "delay-sum-saturates",
        "step",
        "base_q.checked_add(jitter).ok_or(Halt::TimeOverflow)?",
        "base_q.saturating_add(jitter)",
    ),
    mutant(
        "draw-not-to-max",
        "rng",
        "Some(bound) => value.checked_rem(bound)",
        "Some(_) => value.checked_rem(max)",
    ),
    mutant(
        "draw-at-zero",
        "rng",
        "        if max == 0 {\n            return 0;\n        }\n",
        "",
    ),
    mutant(
        "generator-shift",
        "latency",
        "x ^= x >> 27;",
        "x ^= x >> 26;",
    ),
    mutant(
        "pause-forgets-phase",
        "step",
        "    s.resume = s.phase;\n",
        "",
    ),
    mutant(
        "steps-one-more-observation",
        "step",
        "    if s.step >= cfg.s_max {\n        s.status",
        "    if s.step > cfg.s_max {\n        s.status",
    ),
    mutant(
        "steps-before-end",
        "step",
        "if data.row(s.cursor).is_none() {",
        "if data.row(s.cursor).is_none() && s.step < cfg.s_max {",
    ),
    // Messages.
    mutant(
        "stamp-saturates",
        "step",
        "    let seq = s.stamp_seq;\n    bump(&mut s.stamp_seq)?;",
        "    let seq = s.stamp_seq;\n    s.stamp_seq = seq.saturating_add(1);",
    ),
    mutant(
        "expire-stamps-always",
        "step",
        "    let Some(index) = s.orders.position(|o| o.id == id && !o.state.is_terminal()) else {\n        return Ok(());\n    };\n    let (ts, seq) = stamp(s)?;\n",
        "    let (ts, seq) = stamp(s)?;\n    let Some(index) = s.orders.position(|o| o.id == id && !o.state.is_terminal()) else {\n        return Ok(());\n    };\n",
    ),
    mutant(
        "expiry-number-unchecked",
        "step",
        "            s.next_msg_seq.checked_add(1).ok_or(Halt::CounterOverflow)?;\n            Some(at)",
        "            Some(at)",
    ),
    mutant(
        "expiry-time-saturates",
        "step",
        "                .checked_add(life.get())\n                .ok_or(Halt::TimeOverflow)?;",
        "                .saturating_add(life.get());",
    ),
    mutant(
        "expiry-from-now",
        "step",
        "            let at = order\n                .active_after_ns\n",
        "            let at = s\n                .now_ns\n",
    ),
    mutant(
        "message-before-equal",
        "step",
        "m.key() > msg.key()",
        "m.key() >= msg.key()",
    ),
    mutant(
        "awaiting-before-equal",
        "encode",
        ".position(|o| o.id > order.id)",
        ".position(|o| o.id >= order.id)",
    ),
    mutant(
        "cancel-finds-terminal",
        "step",
        "    if let Some(index) = s.orders.position(|o| o.id == id && !o.state.is_terminal())\n",
        "    if let Some(index) = s.orders.position(|o| o.id == id)\n",
    ),
    mutant(
        "cancel-keeps-expiry",
        "step",
        "        remove_expiry(s, id);\n",
        "",
    ),
    mutant(
        "fill-keeps-expiry",
        "step",
        "        remove_expiry(s, order.id);\n",
        "",
    ),
    mutant(
        "cancel-keeps-awaiting",
        "step",
        "let Some(order) = s.awaiting.remove(index)",
        "let Some(order) = s.awaiting.get(index).copied()",
    ),
    mutant(
        "activation-state",
        "step",
        "                order.state = OrderState::Active;\n",
        "",
    ),
    mutant(
        "reject-keeps-lots",
        "step",
        "                s.gate\n                    .release(order.side, order.remaining())\n                    .ok_or(Halt::CounterOverflow)?;\n                status_report",
        "                status_report",
    ),
    mutant(
        "reject-forgets-mark",
        "step",
        "                    ExecKind::Rejected,\n                    Origin::Venue,\n                    order.cancel_inflight,",
        "                    ExecKind::Rejected,\n                    Origin::Venue,\n                    false,",
    ),
    mutant(
        "expire-forgets-mark",
        "step",
        "        ExecKind::Canceled,\n        Origin::Venue,\n        order.cancel_inflight,",
        "        ExecKind::Canceled,\n        Origin::Venue,\n        false,",
    ),
    mutant(
        "expired-after-report",
        "step",
        "    em.event(KernelEvent::Expired {\n        order_id: id,\n        at_ns: s.now_ns,\n    });\n    let report = status_report(\n        ts,\n        seq,\n        &order,\n        ExecKind::Canceled,\n        Origin::Venue,\n        order.cancel_inflight,\n    );\n    queue_delivery(cfg, s, report, None, em)?;\n",
        "    let report = status_report(\n        ts,\n        seq,\n        &order,\n        ExecKind::Canceled,\n        Origin::Venue,\n        order.cancel_inflight,\n    );\n    queue_delivery(cfg, s, report, None, em)?;\n    em.event(KernelEvent::Expired {\n        order_id: id,\n        at_ns: s.now_ns,\n    });\n",
    ),
    mutant(
        "push-before-event",
        "step",
        "    em.event(KernelEvent::Report(report));\n    s.deliveries\n        .push(Delivery {\n            at_ns: at,\n            report,\n            fill,\n        })\n        .map_err(|_| Halt::CounterOverflow)\n",
        "    s.deliveries\n        .push(Delivery {\n            at_ns: at,\n            report,\n            fill,\n        })\n        .map_err(|_| Halt::CounterOverflow)?;\n    em.event(KernelEvent::Report(report));\n    Ok(())\n",
    ),
    // Matching.
    mutant(
        "cross-buy",
        "step",
        "Dir::Buy => row.ask <= order.price,",
        "Dir::Buy => row.ask < order.price,",
    ),
    mutant(
        "cross-sell",
        "step",
        "Dir::Sell => row.bid >= order.price,",
        "Dir::Sell => row.bid > order.price,",
    ),
    mutant(
        "active-on-its-row",
        "step",
        "row.ts_ns <= order.active_after_ns",
        "row.ts_ns < order.active_after_ns",
    ),
    mutant(
        "submitted-matches",
        "step",
        "if order.state != OrderState::Active ||",
        "if order.state.is_terminal() ||",
    ),
    mutant(
        "price-zero-matches",
        "step",
        "|| remaining == 0 || order.price == 0",
        "|| remaining == 0",
    ),
    mutant(
        "nothing-remaining-asks-the-rule",
        "step",
        "if !crosses || remaining == 0 ||",
        "if !crosses ||",
    ),
    mutant(
        "mark-zero",
        "step",
        "    if mid2 > 0 {\n        s.gate.mark2 = Some(mid2);\n    }\n",
        "    s.gate.mark2 = Some(mid2);\n",
    ),
    mutant(
        "queue-touch-is-through",
        "step",
        "(row.ask < order.price, row.ask_lots)",
        "(row.ask <= order.price, row.ask_lots)",
    ),
    mutant(
        "queue-other-lots",
        "step",
        "(row.bid > order.price, row.bid_lots)",
        "(row.bid > order.price, row.ask_lots)",
    ),
    mutant(
        "queue-first-millisecond",
        "step",
        "if in_queue_ms < min_queue_ms {",
        "if in_queue_ms <= min_queue_ms {",
    ),
    mutant(
        "queue-counts-filled-twice",
        "step",
        "Some(u64::try_from(cumulative).ok()?.saturating_sub(order.filled))",
        "Some(u64::try_from(cumulative).ok()?.min(order.remaining()))",
    ),
    mutant(
        "queue-64-bits",
        "step",
        "    let cleared = u128::from(rate_lots)\n        .checked_mul(u128::from(in_queue_ms))?\n",
        "    let cleared = u128::from(rate_lots.saturating_mul(in_queue_ms))\n",
    ),
    mutant(
        "fill-price-not-doubled",
        "step",
        "Some(fill.price.checked_mul(2).ok_or(overflow)?)",
        "Some(fill.price.saturating_mul(2))",
    ),
    mutant(
        "fill-lots-cast",
        "gate",
        "i64::try_from(lots).ok()?",
        "lots.cast_signed()",
    ),
    mutant(
        "fill-position-wraps",
        "gate",
        "Dir::Sell => self.venue_pos_lots.checked_sub(signed)?,",
        "Dir::Sell => self.venue_pos_lots.wrapping_sub(signed),",
    ),
    mutant(
        "fill-event-before-count",
        "step",
        "        bump(&mut s.counters.venue_fills)?;\n        em.event(KernelEvent::Fill(fill));\n",
        "        em.event(KernelEvent::Fill(fill));\n        bump(&mut s.counters.venue_fills)?;\n",
    ),
    mutant(
        "fill-stored-after-report",
        "step",
        "        if let Some(slot) = s.orders.get_mut(index) {\n            *slot = order;\n        }\n        queue_delivery(cfg, s, report, Some(fill), em)?;\n",
        "        queue_delivery(cfg, s, report, Some(fill), em)?;\n        if let Some(slot) = s.orders.get_mut(index) {\n            *slot = order;\n        }\n",
    ),
    mutant(
        "filled-leaves-unmarked",
        "step",
        "        if order.cancel_inflight {\n            insert_by_id(&mut s.awaiting, order).map_err(|_| Halt::CounterOverflow)?;\n        }\n    }\n    Ok(())\n",
        "        insert_by_id(&mut s.awaiting, order).map_err(|_| Halt::CounterOverflow)?;\n    }\n    Ok(())\n",
    ),
    mutant(
        "remaining-wraps",
        "book",
        "    pub(super) fn remaining(&self) -> u64 {\n        self.qty.saturating_sub(self.filled)",
        "    pub(super) fn remaining(&self) -> u64 {\n        self.qty.wrapping_sub(self.filled)",
    ),
    mutant(
        "row-end-unchecked",
        "step",
        "    let mid2 = row.mid2().ok_or(overflow)?;\n",
        "    let mid2 = row.mid2().unwrap_or(0);\n",
    ),
    // Delivery and end.
    mutant(
        "delivery-side-of-report",
        "step",
        "Dir::try_from(fill.side)",
        "Dir::try_from(delivery.report.side)",
    ),
    mutant(
        "delivery-counts-first",
        "step",
        "        s.agent\n            .pos\n            .update_fill(delta, price, fill.ts_ns)\n            .ok_or(Halt::LedgerOverflow)?;\n        bump(&mut s.agent.delivered_fills)?;\n",
        "        bump(&mut s.agent.delivered_fills)?;\n        s.agent\n            .pos\n            .update_fill(delta, price, fill.ts_ns)\n            .ok_or(Halt::LedgerOverflow)?;\n",
    ),
    mutant(
        "venue-reject-counts",
        "step",
        "        (ExecKind::Rejected, Origin::Local) => bump",
        "        (ExecKind::Rejected, Origin::Local | Origin::Venue) => bump",
    ),
    mutant(
        "account-closes-pending",
        "account",
        "ExecKind::Canceled => !report.cancel_pending,",
        "ExecKind::Canceled => true,",
    ),
    mutant(
        "account-local-reject",
        "account",
        "Origin::Local => true,",
        "Origin::Local => !report.cancel_pending,",
    ),
    mutant(
        "end-keeps-observations",
        "step",
        "    s.observed.clear();\n",
        "",
    ),
    mutant(
        "end-counter-saturates",
        "step",
        "        .checked_add(dropped_obs)\n        .ok_or(Halt::CounterOverflow)?;",
        "        .saturating_add(dropped_obs);",
    ),
    mutant(
        "end-clears-after-count",
        "step",
        "    s.msgs.clear();\n    s.observed.clear();\n    s.counters.eof_dropped_msgs = s\n        .counters\n        .eof_dropped_msgs\n        .checked_add(dropped_msgs)\n        .ok_or(Halt::CounterOverflow)?;\n",
        "    s.counters.eof_dropped_msgs = s\n        .counters\n        .eof_dropped_msgs\n        .checked_add(dropped_msgs)\n        .ok_or(Halt::CounterOverflow)?;\n    s.msgs.clear();\n    s.observed.clear();\n",
    ),
    mutant(
        "halts-counted",
        "step",
        "    s.counters.halts = 1;\n",
        "    s.counters.halts = s.counters.halts.saturating_add(1);\n",
    ),
    // What is done before a halt.
    mutant(
        "draw-kept-on-halt",
        "step",
        "    let jitter = s.rng_latency.draw(cfg.latency.jitter_q);\n    let quanta = base_q.checked_add(jitter).ok_or(Halt::TimeOverflow)?;\n    let ns = cfg.latency.ns(quanta).ok_or(Halt::TimeOverflow)?;\n    at.checked_add(ns).ok_or(Halt::TimeOverflow)\n",
        "    let mut rng = s.rng_latency;\n    let jitter = rng.draw(cfg.latency.jitter_q);\n    let quanta = base_q.checked_add(jitter).ok_or(Halt::TimeOverflow)?;\n    let ns = cfg.latency.ns(quanta).ok_or(Halt::TimeOverflow)?;\n    let at = at.checked_add(ns).ok_or(Halt::TimeOverflow)?;\n    s.rng_latency = rng;\n    Ok(at)\n",
    ),
    mutant(
        "gate-written-early",
        "step",
        "    let overflow = Halt::LedgerOverflow;\n    let mut v = s.venue;\n",
        "    s.gate = gate;\n    let overflow = Halt::LedgerOverflow;\n    let mut v = s.venue;\n",
    ),
    mutant(
        "expired-before-release",
        "step",
        "    s.gate\n        .release(order.side, order.remaining())\n        .ok_or(Halt::CounterOverflow)?;\n    em.event(KernelEvent::Expired {\n        order_id: id,\n        at_ns: s.now_ns,\n    });\n",
        "    em.event(KernelEvent::Expired {\n        order_id: id,\n        at_ns: s.now_ns,\n    });\n    s.gate\n        .release(order.side, order.remaining())\n        .ok_or(Halt::CounterOverflow)?;\n",
    ),
    mutant(
        "booked-before-report",
        "step",
        "            queue_delivery(cfg, s, report, None, em)?;\n            if valid {\n                s.orders.push(order).map_err(|_| Halt::CounterOverflow)?;\n",
        "            if valid {\n                s.orders.push(order).map_err(|_| Halt::CounterOverflow)?;\n            }\n            queue_delivery(cfg, s, report, None, em)?;\n            if valid {\n",
    ),
    mutant(
        "awaiting-before-expiry",
        "step",
        "        remove_expiry(s, order.id);\n        if order.cancel_inflight {\n            insert_by_id(&mut s.awaiting, order).map_err(|_| Halt::CounterOverflow)?;\n        }\n",
        "        if order.cancel_inflight {\n            insert_by_id(&mut s.awaiting, order).map_err(|_| Halt::CounterOverflow)?;\n        }\n        remove_expiry(s, order.id);\n",
    ),
    mutant(
        "expiry-all-removed",
        "step",
        "    if let Some(index) = s\n        .msgs\n",
        "    while let Some(index) = s\n        .msgs\n",
    ),
    mutant(
        "pending-not-terminal",
        "step",
        "MsgKind::Activate { order, .. } => order.id == id,",
        "MsgKind::Activate { order, .. } => order.id == id && !order.state.is_terminal(),",
    ),
    mutant(
        "last-delivery-after-push",
        "step",
        "    s.last_delivery_ns = at;\n    em.event(KernelEvent::Report(report));\n    s.deliveries\n        .push(Delivery {\n            at_ns: at,\n            report,\n            fill,\n        })\n        .map_err(|_| Halt::CounterOverflow)\n",
        "    em.event(KernelEvent::Report(report));\n    s.deliveries\n        .push(Delivery {\n            at_ns: at,\n            report,\n            fill,\n        })\n        .map_err(|_| Halt::CounterOverflow)?;\n    s.last_delivery_ns = at;\n    Ok(())\n",
    ),
    mutant(
        "last-observed-after-push",
        "step",
        "                s.last_observed_ns = ready;\n                s.observed\n                    .push(ObsEntry {\n                        ready_ns: ready,\n                        row: index,\n                    })\n                    .map_err(|_| Halt::CounterOverflow)?;\n",
        "                s.observed\n                    .push(ObsEntry {\n                        ready_ns: ready,\n                        row: index,\n                    })\n                    .map_err(|_| Halt::CounterOverflow)?;\n                s.last_observed_ns = ready;\n",
    ),
    mutant(
        "truncation-keeps-observation",
        "step",
        "    let Some(entry) = s.observed.pop_front() else {\n        return false;\n    };\n    if s.step >= cfg.s_max {\n        s.status = Status::Truncated;\n        s.phase = Phase::Terminal;\n        return true;\n    }\n",
        "    let Some(entry) = s.observed.first().copied() else {\n        return false;\n    };\n    if s.step >= cfg.s_max {\n        s.status = Status::Truncated;\n        s.phase = Phase::Terminal;\n        return true;\n    }\n    let _ = s.observed.pop_front();\n",
    ),
    mutant(
        "observed-at-ready",
        "step",
        "        row: entry.row,\n        at_ns: s.now_ns,\n",
        "        row: entry.row,\n        at_ns: entry.ready_ns,\n",
    ),
    mutant(
        "fill-at-row",
        "step",
        "            ts_ns: s.now_ns,\n            exec_id,\n",
        "            ts_ns: row.ts_ns,\n            exec_id,\n",
    ),
    mutant(
        "end-counters-together",
        "step",
        "    s.counters.eof_dropped_msgs = s\n        .counters\n        .eof_dropped_msgs\n        .checked_add(dropped_msgs)\n        .ok_or(Halt::CounterOverflow)?;\n    s.counters.eof_dropped_obs = s\n        .counters\n        .eof_dropped_obs\n        .checked_add(dropped_obs)\n        .ok_or(Halt::CounterOverflow)?;\n",
        "    let dropped = s\n        .counters\n        .eof_dropped_msgs\n        .checked_add(dropped_msgs)\n        .ok_or(Halt::CounterOverflow)?;\n    s.counters.eof_dropped_obs = s\n        .counters\n        .eof_dropped_obs\n        .checked_add(dropped_obs)\n        .ok_or(Halt::CounterOverflow)?;\n    s.counters.eof_dropped_msgs = dropped;\n",
    ),
    mutant(
        "dropped-cancel-flag",
        "step",
        "                order_id: id,\n                cancel: true,\n",
        "                order_id: id,\n                cancel: false,\n",
    ),
    mutant(
        "account-last-entry",
        "account",
        "account.position(|o| o.order_id == report.order_id)",
        "account.as_slice().iter().rposition(|o| o.order_id == report.order_id)",
    ),
    // The second writing of N5's ceiling.
    mutant(
        "ceiling-one-below",
        "ceiling",
        "_ if ceiling > 0 => ceiling,",
        "_ if ceiling > 0 => ceiling - 1,",
    ),
    mutant(
        "ceiling-halts-past-64-bits",
        "ceiling",
        "_ if ceiling > 0 => ceiling,",
        "Some(_) if ceiling > 0 => ceiling,",
    ),
    mutant(
        "ceiling-sum-saturates",
        "ceiling",
        "u64::try_from(u128::from(base_q) + u128::from(jitter)).ok()",
        "Some(base_q.saturating_add(jitter))",
    ),
    mutant(
        "ceiling-after-the-time",
        "ceiling",
        "    let ns = match ns {\n",
        "    ns.map_or(Some(0), |ns| at.checked_add(ns)).ok_or(HaltReason::TimeOverflow)?;\n    let ns = match ns {\n",
    ),
    mutant(
        "ceiling-leaves-the-generator",
        "ceiling",
        "    let jitter = s.rng_latency.draw(latency.jitter_q);\n",
        "    let mut rng = s.rng_latency;\n    let jitter = rng.draw(latency.jitter_q);\n    if base_q.checked_add(jitter).is_some() {\n        s.rng_latency = rng;\n    }\n",
    ),
    mutant(
        "ceiling-is-no-delay-past-64-bits",
        "ceiling",
        "    let ns = match ns {\n",
        "    let ns = match ns.or(Some(0)) {\n",
    ),
];

/// Writes each mutant's files to a folder of its name in `to`, and a list of
/// what was changed.
pub fn all(to: &Path) -> io::Result<bool> {
    let from = Path::new(FROM);
    let mut list = String::new();
    for m in MUTANTS {
        let mut found = false;
        for file in FILES.split(' ').chain([CEILING.0]) {
            let mut text = match file == CEILING.0 {
                true => CEILING.1.to_string(),
                false => fs::read_to_string(from.join(file))?,
            };
            if Path::new(file)
                .file_stem()
                .is_some_and(|stem| stem == m.file)
            {
                found = true;
                let times = text.matches(m.old).count();
                if times != 1 {
                    eprintln!("{}: the old text stands {times} times in {file}", m.name);
                    return Ok(false);
                }
                text = text.replacen(m.old, m.new, 1);
            }
            let path = to.join(m.name).join(file);
            if let Some(folder) = path.parent() {
                fs::create_dir_all(folder)?;
            }
            fs::write(path, text)?;
        }
        if !found {
            eprintln!("{}: there is no {}.rs", m.name, m.file);
            return Ok(false);
        }
        let flat = |text: &str| text.split_whitespace().collect::<Vec<_>>().join(" ");
        list += &format!(
            "{}\n  {}.rs\n  old: {}\n  new: {}\n",
            m.name,
            m.file,
            flat(m.old),
            flat(m.new)
        );
        println!("{}", m.name);
    }
    fs::write(to.join("list.txt"), list)?;
    Ok(true)
}
