//! Counts what outcomes show.

use std::collections::BTreeMap;
use std::io::{self, BufRead};

const EVENTS: [&str; 11] = [
    "",
    "report",
    "fill",
    "delivered",
    "observed",
    "row end",
    "end of data",
    "halted",
    "dropped message",
    "expired",
    "dropped expiry",
];

const REPORTS: [&str; 6] = [
    "Accepted",
    "Rejected",
    "Canceled",
    "CancelRejected",
    "PartialFill",
    "Fill",
];

#[derive(Default)]
struct Counts(BTreeMap<String, u64>);

impl Counts {
    fn add(&mut self, key: impl Into<String>) {
        *self.0.entry(key.into()).or_default() += 1;
    }
    fn line(&self) -> String {
        let parts = self.0.iter().map(|(key, n)| format!("{key}: {n}"));
        parts.collect::<Vec<_>>().join(", ")
    }
}

/// The cases of one name: all their calls, and what the first of each came to.
#[derive(Default)]
struct Family {
    calls: u64,
    first: Counts,
}

/// The rows of document 01's "Refused or halted", and document 02's refusal of a
/// minimum queue time, each with the scenarios whose cases stand on both sides of
/// it (by the start of their names).
const ROWS: [(&str, &[&str]); 19] = [
    (
        "101 row words",
        &["rows-torn", "order-101-102", "order-101-115"],
    ),
    (
        "102 list count",
        &["count-", "order-102-103", "order-102-115", "pass-count-"],
    ),
    ("103 not paused", &["pass-phase", "order-103-104"]),
    ("104 no resume", &["pass-resume", "order-104-105"]),
    ("105 step", &["pass-step"]),
    ("115 minimum", &["minimum-"]),
    ("7 current row", &["row-none", "row-absent-"]),
    ("6 expiry time", &["expiry-time", "order-expiry-6-7"]),
    ("7 message number", &["expiry-seq"]),
    ("7 stamp", &["stamp-", "order-stamp-gate", "halts-again"]),
    (
        "7 release, gate",
        &["release-", "gate-", "order-gate-price"],
    ),
    ("6 delay", &["delay-", "ceiling-", "fill-keeps-booked"]),
    ("7 list full", &["full-"]),
    ("5 bid + ask", &["mid-"]),
    ("7 per_ms 0", &["queue-per-"]),
    ("5 doubled price", &["price-doubled", "order-price-exec"]),
    (
        "7 exec id, venue fills",
        &[
            "exec-id",
            "venue-fills",
            "order-exec-fills",
            "order-fills-delay",
        ],
    ),
    ("5 agent's position", &["agent-", "order-agent-count-"]),
    (
        "7 delivery, end counts",
        &["delivered-fills-", "local-rejects-", "end-"],
    ),
];

/// The edge cases by scenario and by row: how many calls there are around each.
fn around(families: &BTreeMap<String, Family>) {
    let mut scenarios: BTreeMap<&str, (&str, u64)> = BTreeMap::new();
    for (name, family) in families {
        let parts: Vec<&str> = name.split('.').collect();
        if let ["edge", scenario, twin] = parts[..] {
            let (gives, calls) = scenarios.entry(scenario).or_default();
            *calls += family.calls;
            if let Some(number) = twin.strip_prefix("hit") {
                *gives = number;
            }
        }
    }
    let of = |which: &dyn Fn(&str, &str) -> bool| -> String {
        let calls: Vec<u64> = scenarios
            .iter()
            .filter(|(name, (gives, _))| which(name, gives))
            .map(|(_, (_, calls))| *calls)
            .collect();
        format!(
            "calls {:9}, scenarios {:3}, the fewest calls of one {:8}",
            calls.iter().sum::<u64>(),
            calls.len(),
            calls.iter().min().unwrap_or(&0),
        )
    };
    println!("around each refusal and halt, both sides:");
    for number in ["101", "102", "103", "104", "105", "115", "5", "6", "7", ""] {
        let label = if number.is_empty() { "none" } else { number };
        println!("  {label:24} {}", of(&|_, gives| gives == number));
    }
    println!("around each row of the table:");
    for (row, starts) in ROWS {
        let named = |name: &str, _: &str| starts.iter().any(|start| name.starts_with(start));
        println!("  {row:24} {}", of(&named));
    }
}

#[derive(Default)]
struct Stats {
    cases: u64,
    calls: u64,
    answers: Counts,
    ends: Counts,
    halts: Counts,
    events: Counts,
    reports: Counts,
    short_logs: u64,
    most: u64,
    /// By the name up to its numbers.
    families: BTreeMap<String, Family>,
}

/// The name without its last two parts, the seed and the index.
fn family(name: &str) -> String {
    match name.rsplitn(3, '.').nth(2) {
        Some(family) => family.to_string(),
        None => name.to_string(),
    }
}

/// What a call has done, from its answer and the state after it.
fn ending(answer: u64, phase: u64, status: [u64; 2]) -> String {
    match (answer, phase, status) {
        (0, 5, [1, _]) => "end of data".to_string(),
        (0, 5, [2, _]) => "truncated".to_string(),
        (0, 5, [3, n]) => format!("halt {n}"),
        (0, 5, _) => "terminal".to_string(),
        (0, 4, _) => "paused".to_string(),
        (0, ..) => "passed".to_string(),
        (n, ..) => format!("refused {n}"),
    }
}

pub fn all(from: impl BufRead, families: bool) -> io::Result<bool> {
    let mut t = Stats::default();
    let mut of = String::new();
    let (mut call, mut answer, mut count, mut phase) = (0, 0, 0, 0);
    let mut first = true;
    for line in from.lines() {
        let line = line?;
        let (label, rest) = line.split_once(' ').unwrap_or((&line, ""));
        let number = |i: usize| -> u64 {
            let field = rest.split(' ').nth(i);
            field.and_then(|f| f.parse().ok()).unwrap_or(0)
        };
        match label {
            "case" => {
                t.cases += 1;
                of = family(rest);
                first = true;
            }
            "call" => {
                t.calls += 1;
                t.families.entry(of.clone()).or_default().calls += 1;
                call = number(0);
            }
            "answer" => {
                answer = number(0);
                t.answers.add(format!("{answer:3}"));
            }
            "count" => {
                count = number(0);
                if call == 0 {
                    t.most = t.most.max(count);
                }
            }
            "kept" => t.short_logs += u64::from(number(0) < count),
            "event" => {
                let kind = number(0) as usize;
                t.events.add(format!("{kind:2} {}", EVENTS[kind]));
                match kind {
                    1 => {
                        let kind = number(5) as usize;
                        t.reports.add(format!("{kind} {}", REPORTS[kind]));
                    }
                    7 => t.halts.add(number(1).to_string()),
                    _ => {}
                }
            }
            "phase" => phase = number(0),
            "status" => {
                let ends = ending(answer, phase, [number(0), number(1)]);
                if first {
                    let family = t.families.entry(of.clone()).or_default();
                    family.first.add(&ends[..]);
                    first = false;
                }
                t.ends.add(ends);
            }
            "bad" => println!("bad {rest}"),
            _ => {}
        }
    }
    println!("cases            {}", t.cases);
    println!("calls            {}", t.calls);
    println!("answers          {}", t.answers.line());
    println!("calls ended      {}", t.ends.line());
    println!("halted events    {}", t.halts.line());
    println!("events kept      {}", t.events.line());
    println!("reports kept     {}", t.reports.line());
    println!("logs too short   {}", t.short_logs);
    println!("most events      {} in one advance", t.most);
    if families {
        println!("calls of each family, and what the first of a case came to:");
        for (name, family) in &t.families {
            println!("  {name:42} {:8}  {}", family.calls, family.first.line());
        }
        around(&t.families);
    }
    Ok(true)
}
