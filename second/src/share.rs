//! The share arithmetic: what a window of ticks holds on a row of free nodes.
//!
//! It knows nothing of jobs, shows or clocks. All times count from the start
//! of the window.

/// Five costs, in ticks.
#[derive(Clone, Copy, Debug, PartialEq, Eq)]
pub struct Costs {
    /// m, a unit.
    pub send: u64,
    /// p, a unit.
    pub compute: u64,
    /// ST, a send.
    pub link_setup: u64,
    /// SC, a chunk.
    pub node_setup: u64,
    /// r, a unit.
    pub return_cost: u64,
}

impl Costs {
    /// In the order of the `farm` line.
    pub fn new(
        send: u64,
        compute: u64,
        link_setup: u64,
        node_setup: u64,
        return_cost: u64,
    ) -> Self {
        Costs {
            send,
            compute,
            link_setup,
            node_setup,
            return_cost,
        }
    }

    /// The same with another p.
    pub fn with_compute(self, compute: u64) -> Self {
        Costs { compute, ..self }
    }

    /// What a chunk takes on the link.
    #[inline]
    pub fn send_ticks(self, units: u64) -> u64 {
        self.link_setup + units * self.send
    }

    /// What it then takes on its node.
    #[inline]
    pub fn compute_ticks(self, units: u64) -> u64 {
        self.node_setup + units * self.compute
    }

    /// What its audio then takes on the node's own return line.
    #[inline]
    pub fn return_ticks(self, units: u64) -> u64 {
        units * self.return_cost
    }

    /// When a chunk's node stops computing and its audio begins to come back.
    #[inline]
    pub fn compute_end(self, send_end: u64, units: u64) -> u64 {
        send_end + self.compute_ticks(units)
    }

    /// A chunk has finished when its audio is back.
    #[inline]
    pub fn finish(self, send_end: u64, units: u64) -> u64 {
        self.compute_end(send_end, units) + self.return_ticks(units)
    }
}

/// One node's share, when its send ends and when its audio is back.
#[derive(Clone, Copy, Debug, PartialEq, Eq)]
pub struct Share {
    pub units: u64,
    pub send_end: u64,
    pub finish: u64,
}

/// The costs with what is worked out from them once.
#[derive(Clone, Copy, Debug)]
pub struct Windows {
    costs: Costs,
    /// m + p + r, what one more unit takes of a node's window.
    unit: u64,
    /// ST + SC, what a chunk takes before its first unit.
    setup: u64,
    /// 2^64 / unit rounded up, to divide by multiplying.
    reciprocal: u64,
}

/// What a number of nodes would do with fractions of a unit.
struct Fractions {
    /// The units that one unit's ticks of window add.
    reach: f64,
    /// The ticks that the link setups take.
    drag: f64,
}

/// The largest shares in one window, and how far the window can be moved with
/// the shares staying the same.
struct Trial {
    units: u64,
    /// The window could be this much shorter.
    spare: u64,
    /// The shares change when the window is this much longer.
    missing: u64,
}

/// After this many guesses the search for the least window halves instead.
const GUESSES: u32 = 8;

impl Windows {
    pub fn new(costs: Costs) -> Self {
        let unit = costs.send + costs.compute + costs.return_cost;
        Windows {
            costs,
            unit,
            setup: costs.link_setup + costs.node_setup,
            reciprocal: u64::MAX / unit + 1,
        }
    }

    /// Changes the costs. Where they stay the same nothing is worked out again.
    #[inline]
    pub fn change(&mut self, costs: Costs) {
        if costs != self.costs {
            *self = Windows::new(costs);
        }
    }

    /// The units that fit on the first node of a window, 0 if not even one.
    #[inline]
    fn first_share(&self, window: u64) -> u64 {
        self.whole_units(window.saturating_sub(self.setup))
    }

    /// `ticks / unit`. The product is exact enough as ticks stay below 2^40 and
    /// a unit, at most 1,020,000, below 2^20: the error is under 2^-24, a step at
    /// least 2^-20.
    #[inline]
    fn whole_units(&self, ticks: u64) -> u64 {
        ((u128::from(ticks) * u128::from(self.reciprocal)) >> 64) as u64
    }

    /// What a share on the link leaves of a window for the nodes after it.
    #[inline]
    fn after_send(&self, window: u64, units: u64) -> u64 {
        window - self.costs.send_ticks(units)
    }

    /// The most units that the given number of nodes hold in a window.
    pub fn capacity(&self, nodes: usize, window: u64) -> u64 {
        if nodes == 0 {
            return 0;
        }
        match self.first_share(window) {
            0 => 0,
            units => units + self.capacity(nodes - 1, self.after_send(window, units)),
        }
    }

    /// The fewest nodes, up to `most`, that hold the size in a window.
    pub fn fewest_nodes(&self, size: u64, window: u64, most: usize) -> Option<usize> {
        let mut left = size;
        let mut window = window;
        for nodes in 1..=most {
            let units = self.first_share(window);
            if units >= left {
                return Some(nodes);
            }
            if units == 0 {
                return None;
            }
            left -= units;
            window = self.after_send(window, units);
        }
        None
    }

    /// The least window that holds the size on the given number of nodes;
    /// `enough` is a window known to hold it.
    pub fn least_window(&self, nodes: usize, size: u64, enough: u64) -> u64 {
        if nodes == 1 {
            return self.setup + size * self.unit;
        }
        let fractions = self.fractions(nodes);
        let ticks_a_unit = self.unit as f64 / fractions.reach;
        let mut short = 0;
        let mut enough = enough;
        let mut guess = self.fraction_window(&fractions, size);
        let mut guesses = 0;
        // The answer lies above `short` and is at most `enough`.
        while short + 1 < enough {
            let window = guess.clamp(short + 1, enough - 1);
            let trial = self.trial(nodes, window);
            let off = trial.units.abs_diff(size);
            let step = (off as f64 * ticks_a_unit) as u64;
            if trial.units >= size {
                enough = window - trial.spare;
                guess = window.saturating_sub(step);
            } else {
                short = window + trial.missing - 1;
                guess = if off == 1 { short } else { window + step };
            }
            guesses += 1;
            if guesses > GUESSES {
                guess = short + (enough - short) / 2;
            }
        }
        enough
    }

    /// A guess of the least window: the one for shares in fractions, and half
    /// a unit for what rounding down loses on average.
    fn fraction_window(&self, fractions: &Fractions, size: u64) -> u64 {
        let ticks = (size * self.unit) as f64 + fractions.drag;
        self.setup + self.unit / 2 + (ticks / fractions.reach) as u64
    }

    /// Each node's share is (p + r) / (m + p + r) of the share before it, less
    /// what the link setup takes; these are the sums over the nodes.
    fn fractions(&self, nodes: usize) -> Fractions {
        let ratio = (self.unit - self.costs.send) as f64 / self.unit as f64;
        let endless = self.unit as f64 / self.costs.send as f64;
        let reach = endless * (1.0 - ratio.powi(nodes as i32));
        let drag = self.costs.link_setup as f64 * endless * (nodes as f64 - reach);
        Fractions { reach, drag }
    }

    fn trial(&self, nodes: usize, window: u64) -> Trial {
        let mut trial = Trial {
            units: 0,
            spare: u64::MAX,
            missing: u64::MAX,
        };
        let mut window = window;
        for _ in 0..nodes {
            if window < self.setup + self.unit {
                let missing = self.setup + self.unit - window;
                trial.missing = trial.missing.min(missing);
                break;
            }
            let room = window - self.setup;
            let units = self.whole_units(room);
            let rest = room - units * self.unit;
            trial.units += units;
            trial.spare = trial.spare.min(rest);
            trial.missing = trial.missing.min(self.unit - rest);
            window = self.after_send(window, units);
        }
        trial
    }

    /// The shares of a size in its least window: each the largest that fits,
    /// the last what is left. No list with that finish is larger place by
    /// place, since no share can pass what its window holds.
    pub fn shares(&self, size: u64, least_window: u64) -> impl Iterator<Item = Share> + '_ {
        let mut left = size;
        let mut window = least_window;
        std::iter::from_fn(move || {
            if left == 0 {
                return None;
            }
            let units = self.first_share(window).min(left);
            left -= units;
            window = self.after_send(window, units);
            let send_end = least_window - window;
            Some(Share {
                units,
                send_end,
                finish: self.costs.finish(send_end, units),
            })
        })
    }

    pub fn costs(&self) -> Costs {
        self.costs
    }
}
