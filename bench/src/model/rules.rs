//! Which requests of document 02 the rules include. A request lands by its line in `LANDED`; its tests turn it on
//! alone.

/// One switch for each request that changes a rule of document 01.
#[derive(Clone, Copy, Debug, PartialEq, Eq)]
pub struct Rules {
    /// K2: in phase H the dead slot goes to the earliest ready LO job.
    pub dead_slot: bool,
    /// K3: refusal 17 for a job in more than four runs of table slots.
    pub chopped: bool,
    /// K6: a live HI job stands as missed when its deadline comes.
    pub missed: bool,
    /// K4: beside each spare the end that makes it; printed, compared in coherence, and 9's second place.
    pub ends: bool,
    /// K8: the run program takes lost slots and firm requests among the reports.
    pub calls: bool,
}

impl Rules {
    /// Document 01 alone.
    pub const BASE: Rules = Rules { dead_slot: false, chopped: false, missed: false, ends: false, calls: false };

    /// The rules that the product has.
    pub const LANDED: Rules = Rules { chopped: true, ..Rules::BASE };
}
