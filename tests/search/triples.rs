//! Triples made by hand. Each rule is broken alone, as far as it can be: wherever a row is rejected for one rule, the
//! prices are reached, the plays and the names are in order and the sums agree as far as the others allow.

/// An allotment, the campaigns' figures and the views' figures.
pub type Row = (&'static [u64], &'static [u64], &'static [u64]);

/// Prices with budgets, views, and what the check has to say.
pub struct Rule {
    pub name: &'static str,
    pub plan: &'static [(u64, u64)],
    pub views: &'static [u64],
    pub accepted: &'static [Row],
    pub rejected: &'static [Row],
}

const TOP: u64 = u64::MAX;
/// The one greatest allotment gives the first view to campaign 1 and the second to campaign 0: 8 cents.
const TWO: &[(u64, u64)] = &[(5, 5), (3, 3)];
/// Two plays at 2 cents, and 2^30 plays at one.
const MANY: &[(u64, u64)] = &[(2, 4), (1, 1 << 30)];

pub const RULES: [Rule; 15] = [
    Rule {
        name: "not greatest",
        plan: TWO,
        views: &[0b11, 0b01],
        accepted: &[(&[1, 0], &[5, 3], &[0, 0]), (&[1, 0], &[2, 0], &[3, 3])],
        rejected: &[
            // figures that reach every price
            (&[0, 64], &[5, 3], &[0, 0]),
            (&[64, 0], &[5, 3], &[0, 0]),
            (&[1, 64], &[2, 0], &[3, 3]),
            // figures that sum to what is taken
            (&[0, 64], &[5, 0], &[0, 0]),
            (&[64, 0], &[2, 0], &[0, 3]),
            (&[1, 64], &[0, 3], &[0, 0]),
            (&[64, 64], &[0, 0], &[0, 0]),
        ],
    },
    Rule {
        name: "a sum a cent too great",
        plan: TWO,
        views: &[0b11, 0b01],
        accepted: &[(&[1, 0], &[5, 3], &[0, 0])],
        rejected: &[(&[1, 0], &[6, 3], &[0, 0]), (&[1, 0], &[5, 3], &[1, 0]), (&[1, 0], &[5, 3], &[0, 1])],
    },
    Rule {
        name: "an entry not named",
        plan: &[(2, 4), (2, 4)],
        views: &[0b10, 0],
        accepted: &[(&[1, 64], &[0, 0], &[2, 0])],
        rejected: &[
            (&[0, 64], &[0, 0], &[2, 0]),
            (&[64, 1], &[0, 0], &[2, 0]),
            (&[64, 0], &[0, 0], &[2, 0]),
            (&[1, 2], &[0, 0], &[2, 0]),
            (&[1, 63], &[0, 0], &[2, 0]),
        ],
    },
    Rule {
        name: "an entry that is neither 64 nor a campaign",
        plan: &[(2, 4)],
        views: &[0b1, 0],
        accepted: &[(&[0, 64], &[0], &[2, 0])],
        rejected: &[
            (&[0, 65], &[0], &[2, 0]),
            (&[0, 128], &[0], &[2, 0]),
            (&[0, 320], &[0], &[2, 0]),
            (&[0, 65_600], &[0], &[2, 0]),
            (&[0, (1 << 32) + 64], &[0], &[2, 0]),
            (&[0, (1 << 63) + 64], &[0], &[2, 0]),
            (&[0, TOP], &[0], &[2, 0]),
            (&[65, 64], &[0], &[2, 0]),
            (&[128, 64], &[0], &[2, 0]),
            (&[256, 64], &[0], &[2, 0]),
            (&[1 << 16, 64], &[0], &[2, 0]),
            (&[1 << 32, 64], &[0], &[2, 0]),
            (&[1 << 63, 64], &[0], &[2, 0]),
            (&[TOP, 64], &[0], &[2, 0]),
        ],
    },
    Rule {
        name: "one play too many",
        plan: &[(2, 5)],
        views: &[1, 1, 1],
        accepted: &[(&[0, 64, 0], &[2], &[0, 0, 0]), (&[0, 0, 64], &[2], &[0, 0, 0])],
        rejected: &[(&[0, 0, 0], &[0], &[2, 2, 2]), (&[0, 0, 0], &[2], &[0, 0, 2]), (&[0, 0, 0], &[1], &[1, 1, 2])],
    },
    Rule {
        name: "256 plays where one is bought",
        plan: &[(1, 1)],
        views: &[1; 256],
        accepted: &[(&ONE_OF_256, &[1], &[0; 256])],
        rejected: &[(&[0; 256], &[0], &[1; 256])],
    },
    Rule {
        name: "a figure too small",
        plan: TWO,
        views: &[0b11, 0b01],
        accepted: &[(&[1, 0], &[4, 2], &[1, 1]), (&[1, 0], &[2, 0], &[3, 3])],
        rejected: &[
            (&[1, 0], &[4, 3], &[1, 0]),
            (&[1, 0], &[5, 2], &[0, 1]),
            (&[1, 0], &[3, 2], &[2, 1]),
            (&[1, 0], &[4, 1], &[1, 2]),
            // of a name that is not played
            (&[1, 0], &[1, 0], &[3, 4]),
            (&[1, 0], &[0, 0], &[3, 5]),
        ],
    },
    Rule {
        name: "a figure counts as often as whole plays",
        plan: &[(2, 5)],
        views: &[1],
        accepted: &[(&[0], &[0], &[2])],
        rejected: &[(&[0], &[2], &[0]), (&[0], &[1], &[1]), (&[0], &[1], &[0]), (&[0], &[0], &[1])],
    },
    Rule {
        name: "figures count without a name",
        plan: &[(2, 2), (9, 9)],
        views: &[0b01, 0],
        accepted: &[(&[0, 64], &[2, 0], &[0, 0]), (&[0, 64], &[0, 0], &[2, 0])],
        rejected: &[(&[0, 64], &[2, 1], &[0, 0]), (&[0, 64], &[2, 0], &[0, 1])],
    },
    Rule {
        name: "a product that wraps",
        plan: MANY,
        views: &[0b01, 0b01],
        accepted: &[(&[0, 0], &[2, 0], &[0, 0]), (&[0, 0], &[1, 0], &[1, 1])],
        rejected: &[
            (&[0, 0], &[(1 << 63) + 2, 0], &[0, 0]),
            (&[0, 0], &[2, 1 << 34], &[0, 0]),
            (&[0, 0], &[2, 3 << 34], &[0, 0]),
            (&[0, 0], &[TOP, 0], &[3, 3]),
            (&[0, 0], &[(1 << 63) + 2, 1 << 34], &[0, 0]),
            (&[64, 64], &[1 << 63, 0], &[0, 0]),
        ],
    },
    Rule {
        name: "a sum that wraps",
        plan: MANY,
        views: &[0b01, 0b01],
        accepted: &[(&[0, 0], &[0, 0], &[2, 2])],
        rejected: &[
            (&[0, 0], &[0, 0], &[TOP - 1, 6]),
            (&[0, 0], &[0, 0], &[6, TOP - 1]),
            (&[0, 0], &[0, 0], &[(1 << 63) + 2, (1 << 63) + 2]),
            // a campaign's figure and a view's, which are too great only together
            (&[0, 0], &[1 << 62, 0], &[(1 << 63) + 2, 2]),
            (&[0, 0], &[0, 1 << 33], &[(1 << 63) + 2, 2]),
            (&[0, 0], &[(1 << 62) + 1, 1 << 33], &[1, 1]),
            (&[64, 64], &[0, 0], &[1 << 63, 1 << 63]),
            (&[0, 0], &[TOP, TOP], &[TOP, TOP]),
        ],
    },
    Rule {
        name: "a sum that is right modulo 2^32",
        plan: MANY,
        views: &[0b01, 0b01],
        accepted: &[(&[0, 0], &[2, 0], &[0, 0]), (&[0, 0], &[0, 0], &[2, 2])],
        rejected: &[
            (&[0, 0], &[(1 << 31) + 2, 0], &[0, 0]),
            (&[0, 0], &[2, 4], &[0, 0]),
            (&[0, 0], &[0, 0], &[(1 << 32) + 2, 2]),
            (&[0, 0], &[0, 0], &[(1 << 32) - 2, 6]),
            (&[0, 0], &[0, 0], &[(1 << 16) + 2, 2]),
            (&[0, 0], &[0, 0], &[2, (1 << 8) + 2]),
        ],
    },
    Rule {
        name: "figures where nothing is taken",
        plan: &[(2, 4)],
        views: &[0, 0],
        accepted: &[(&[64, 64], &[0], &[0, 0])],
        rejected: &[
            (&[64, 64], &[1], &[0, 0]),
            (&[64, 64], &[0], &[0, 1]),
            (&[64, 64], &[0], &[1, TOP]),
            (&[64, 64], &[0], &[1 << 32, 0]),
        ],
    },
    Rule {
        name: "no campaigns",
        plan: &[],
        views: &[0],
        accepted: &[(&[64], &[], &[0])],
        rejected: &[(&[0], &[], &[0]), (&[63], &[], &[0]), (&[65], &[], &[0]), (&[TOP], &[], &[0]), (&[64], &[], &[1])],
    },
    Rule {
        name: "entries beyond are not looked at",
        plan: &[(5, 10)],
        views: &[1],
        accepted: &[(&[0, TOP], &[0, TOP], &[5, TOP]), (&[0, 0, 0, 0], &[0, 0], &[5, 0])],
        rejected: &[(&[0, 64], &[0, 0], &[4, 1]), (&[64, 0], &[0], &[0, 5]), (&[64, 64], &[0, 5], &[5, 0])],
    },
];

/// The first of 256 views is given to campaign 0, the others to nobody.
const ONE_OF_256: [u64; 256] = {
    let mut entries = [64; 256];
    entries[0] = 0;
    entries
};
