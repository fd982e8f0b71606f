//! How many cases there are of each kind that may be many, in each version. Every
//! kind stands in both extents.

pub struct Extent {
    pub damaged_jobs: u64,
    pub random_jobs: u64,
    pub longest_jobs: u64,
    /// One in so many of the jobs that hold every head there is, not the same ones in
    /// both versions: with 2, each stands in one of them.
    pub one_job_of_heads_in: usize,
    pub random_rectangles: u64,
    /// Each byte of the worked job with every other value, or with telling ones.
    pub every_value: bool,
    /// Each diameter with every count of points, or with one; and sizes about
    /// their limits with wrong counts of points all, or some.
    pub every_pairing: bool,
    pub figures: Figures,
    pub explained: Explained,
    pub sheets: Sheets,
}

/// The same for jobs by figures.
pub struct Figures {
    pub random_figures: u64,
    pub spoilt_figures: u64,
    /// One in so many of the stacks that stand on either side of every step, not the same
    /// ones in both versions: with 2, each stands in one of them.
    pub one_stack_in: usize,
    /// One in so many of the numbers of points that can be asked for.
    pub one_number_in: usize,
    /// One in so many truncations of the longest figure.
    pub one_truncation_in: usize,
    /// Each byte of a short figure with every other value, or with telling ones.
    pub every_value: bool,
    /// One in so many changes of that figure, and of the longest.
    pub one_short_change_in: usize,
    pub one_change_in: usize,
}

/// The same for findings explained.
pub struct Explained {
    pub random_jobs: u64,
    pub damaged_jobs: u64,
    pub random_figures: u64,
    pub spoilt_figures: u64,
}

/// The same for printed sheets, each of which starts a program.
pub struct Sheets {
    pub damaged_jobs: u64,
    pub random_jobs: u64,
    pub longest_jobs: u64,
    /// One in so many of the worked job's truncations, and of its changes.
    pub one_truncation_in: usize,
    pub one_change_in: usize,
}

pub const FULL: Extent = Extent {
    damaged_jobs: 15_000,
    random_jobs: 3_000,
    longest_jobs: 6,
    one_job_of_heads_in: 2,
    random_rectangles: 20_000,
    every_value: true,
    every_pairing: true,
    figures: Figures {
        random_figures: 4_000,
        spoilt_figures: 6_000,
        one_stack_in: 1,
        one_number_in: 1,
        one_truncation_in: 1,
        every_value: true,
        one_short_change_in: 1,
        one_change_in: 1,
    },
    explained: Explained {
        random_jobs: 300,
        damaged_jobs: 1_500,
        random_figures: 150,
        spoilt_figures: 1_000,
    },
    sheets: Sheets {
        damaged_jobs: 450,
        random_jobs: 300,
        longest_jobs: 6,
        one_truncation_in: 2,
        one_change_in: 2,
    },
};

/// Few enough for emulated calls, of which there are then some 620,000, and for
/// emulated programs, of which each sheet starts one.
pub const LIGHT: Extent = Extent {
    damaged_jobs: 3_000,
    random_jobs: 2_000,
    longest_jobs: 2,
    one_job_of_heads_in: 18,
    random_rectangles: 4_000,
    every_value: false,
    every_pairing: false,
    figures: Figures {
        random_figures: 16,
        spoilt_figures: 24,
        one_stack_in: 2,
        one_number_in: 12,
        one_truncation_in: 9,
        every_value: false,
        one_short_change_in: 5,
        one_change_in: 31,
    },
    explained: Explained {
        random_jobs: 60,
        damaged_jobs: 150,
        random_figures: 20,
        spoilt_figures: 60,
    },
    sheets: Sheets {
        damaged_jobs: 48,
        random_jobs: 30,
        longest_jobs: 1,
        one_truncation_in: 10,
        one_change_in: 47,
    },
};
