//! Where the kernel with document 02's requests parts from the published files:
//! each text stands once in its file and is replaced. `build.rs` applies them to
//! copies; what they lead to is ours, in `inside/`.

pub struct Change {
    /// The file's name without its folder and ending.
    pub file: &'static str,
    pub old: &'static str,
    pub new: &'static str,
}

pub const CHANGES: &[Change] = &[
    // N5: the configuration's ceiling, and the delay under it.
    Change {
        file: "config",
        old: "    pub jitter_q: u64,\n}\n",
        new: "    pub jitter_q: u64,\n    pub ceiling_ns: u64,\n}\n",
    },
    Change {
        file: "config",
        old: "            jitter_q: 0,\n",
        new: "            jitter_q: 0,\n            ceiling_ns: 0,\n",
    },
    Change {
        file: "glue",
        old: "            jitter_q: config.jitter,\n",
        new: "            jitter_q: config.jitter,\n            ceiling_ns: config.ceiling,\n",
    },
    Change {
        file: "step",
        old: "fn delayed<",
        new: "use super::ceiling::delayed;\nfn published_delayed<",
    },
];
