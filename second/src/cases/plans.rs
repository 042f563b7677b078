//! The valid plans there are: those of document 01, and families of random
//! ones, each aimed at something that goes wrong easily.

use crate::cases::draft::Draft;
use crate::cases::large_plans::{
    crowd, day, full_limits, grid, line, ring, stages, ten_minutes, two_nodes,
};
use crate::cases::small_plans::{
    cut_ranges, limits, loops, short_ranges, small_ties, tangle, touching, waits,
};
use crate::plan::Row;
use crate::random::Random;

/// A family: its name, and a plan of it.
pub type Family = (&'static str, fn(&mut Random) -> Draft);

/// The families whose plans are small enough to try all chains.
pub const SMALL: [Family; 8] = [
    ("tangle", tangle),
    ("loops", loops),
    ("waits", waits),
    ("touching", touching),
    ("limits", limits),
    ("short ranges", short_ranges),
    ("cut ranges", cut_ranges),
    ("ties", small_ties),
];

/// The families of large plans.
pub const LARGE: [Family; 9] = [
    ("crowd", crowd),
    ("line", line),
    ("ring", ring),
    ("two nodes", two_nodes),
    ("grid", grid),
    ("stages", stages),
    ("day", day),
    ("ten minutes", ten_minutes),
    ("full limits", full_limits),
];

/// The plan of cases A to G.
pub fn figures_plan() -> Draft {
    Draft::of(
        &[
            [0, 10000, 1, 2, 1000],
            [4000, 9000, 2, 3, 500],
            [8000, 20000, 1, 3, 100],
            [12000, 30000, 2, 3, 1000],
            [2000, 6000, 1, 4, 2000],
            [3000, 15000, 4, 3, 1000],
        ],
        &[
            [0, 30000, 1, 2, 10],
            [0, 30000, 2, 3, 20],
            [0, 30000, 1, 3, 1300],
            [0, 30000, 1, 4, 5],
        ],
    )
}

/// The same plan with its ranges cut every second, the latest first.
pub fn cut_figures_plan() -> Draft {
    let Draft { contacts, ranges } = figures_plan();
    let cut = |range: &Row| -> Vec<Row> {
        let seconds = range[0] / 1000..range[1] / 1000;
        let piece = |second| {
            [
                1000 * second,
                1000 * (second + 1),
                range[2],
                range[3],
                range[4],
            ]
        };
        seconds.rev().map(piece).collect()
    };
    let pieces: Vec<Row> = ranges.iter().flat_map(cut).collect();
    Draft::of(&contacts, &pieces)
}

/// The plan of case H.
pub fn case_h() -> Draft {
    Draft::of(
        &[
            [0, 1000, 1, 2, 1_000_000],
            [0, 1000, 2, 3, 1_000_000],
            [500, 2000, 1, 3, 1_000_000],
            [5000, 9000, 3, 4, 1_000_000],
        ],
        &[
            [0, 9000, 1, 2, 0],
            [0, 9000, 2, 3, 0],
            [0, 9000, 1, 3, 0],
            [0, 9000, 3, 4, 0],
        ],
    )
}

/// The plan of case I.
pub fn case_i() -> Draft {
    Draft::of(
        &[
            [0, 1000, 1, 2, 1_000_000],
            [0, 1000, 1, 3, 1_000_000],
            [0, 1000, 3, 4, 1_000_000],
            [0, 1000, 2, 4, 1_000_000],
        ],
        &[
            [0, 1000, 1, 2, 0],
            [0, 1000, 1, 3, 0],
            [0, 1000, 3, 4, 0],
            [0, 1000, 2, 4, 0],
        ],
    )
}
