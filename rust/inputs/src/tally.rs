//! Counts of cases by kind of input and by status, as a table, and of refusals with 4 by reason.

/// The library's statuses are 0 to 9.
const STATUSES: usize = 10;

/// How many cases had each status.
#[derive(Debug, Default, Clone, Copy)]
pub struct Counts([u64; STATUSES]);

impl Counts {
    /// Counts one case.
    ///
    /// # Panics
    ///
    /// If the library has no such status.
    pub fn add(&mut self, status: u32) {
        match self.0.get_mut(status as usize) {
            Some(count) => *count += 1,
            None => panic!("status {status}"),
        }
    }

    pub fn sum(&self) -> u64 {
        self.0.iter().sum()
    }

    /// The number of cases with this status.
    pub fn of(&self, status: u32) -> u64 {
        self.0.get(status as usize).copied().unwrap_or(0)
    }

    pub fn merge(&mut self, other: &Counts) {
        for (count, more) in self.0.iter_mut().zip(other.0) {
            *count += more;
        }
    }
}

/// How many refusals with 4 had each reason.
#[derive(Debug, Default, Clone, Copy)]
pub struct Reasons([u64; 6]);

impl Reasons {
    /// Counts one case of any status.
    ///
    /// # Panics
    ///
    /// If status 4 comes with another reason than 1 to 6, or another status with a reason.
    pub fn add(&mut self, status: u32, reason: u32) {
        match (status, reason) {
            (4, 1..=6) => self.0[reason as usize - 1] += 1,
            (4, _) | (_, 1..) => panic!("status {status} with reason {reason}"),
            _ => {}
        }
    }

    /// The number of cases with this reason.
    pub fn of(&self, reason: u32) -> u64 {
        let at = (reason as usize).checked_sub(1);
        at.and_then(|at| self.0.get(at)).copied().unwrap_or(0)
    }

    pub fn sum(&self) -> u64 {
        self.0.iter().sum()
    }

    /// The reasons that occurred.
    pub fn found(&self) -> Vec<u32> {
        (1..=6).filter(|&reason| self.of(reason) > 0).collect()
    }

    pub fn merge(&mut self, other: &Reasons) {
        for (count, more) in self.0.iter_mut().zip(other.0) {
            *count += more;
        }
    }

    /// Prints the head of a table of reasons.
    pub fn print_head(what: &str) {
        let titles = ["reason 1", "2", "3", "4", "5", "6"];
        let titles: String = titles.iter().map(|title| format!(" {title:>8}")).collect();
        println!("{what:26}{:>9}{titles}", "status 4");
    }

    /// Prints a line of it.
    pub fn print(&self, name: &str) {
        let columns: String = self.0.iter().map(|count| format!(" {count:>8}")).collect();
        println!("{name:26}{:>9}{columns}", self.sum());
    }

    /// Prints them as a table with one line.
    ///
    /// # Panics
    ///
    /// If one of the six never occurred.
    pub fn finish(&self, what: &str) {
        Reasons::print_head(what);
        self.print("total");
        assert_eq!(self.found(), [1, 2, 3, 4, 5, 6], "reasons that occurred");
    }
}

/// A table with a line for each kind of input and a column for each status.
pub struct Table {
    statuses: &'static [u32],
    totals: Counts,
}

impl Table {
    /// Prints the head of a table on `what`, which may have the given statuses.
    pub fn new(what: &str, statuses: &'static [u32]) -> Table {
        let mut columns = format!("{what:26}{:>9}", "cases");
        for (i, status) in statuses.iter().enumerate() {
            let title = if i == 0 { "status " } else { "" };
            columns += &format!(" {:>8}", format!("{title}{status}"));
        }
        println!("{columns}");
        Table {
            statuses,
            totals: Counts::default(),
        }
    }

    /// Prints the line of one kind.
    ///
    /// # Panics
    ///
    /// If there is no case, or one with a status that the table has no column for.
    pub fn line(&mut self, name: &str, counts: Counts) {
        self.print(name, &counts);
        assert!(counts.sum() > 0, "no case of the kind '{name}'");
        let known: u64 = self.columns(&counts).sum();
        assert_eq!(known, counts.sum(), "a status without column: {counts:?}");
        self.totals.merge(&counts);
    }

    /// Prints the sums.
    ///
    /// # Panics
    ///
    /// If there are fewer than `least` cases, or none with one of the statuses.
    pub fn finish(self, least: u64) {
        self.print("total", &self.totals);
        assert!(self.totals.sum() >= least, "fewer than {least} cases");
        let all_occurred = self.columns(&self.totals).all(|count| count > 0);
        assert!(all_occurred, "one of {:?} never occurred", self.statuses);
    }

    fn print(&self, name: &str, counts: &Counts) {
        let columns: Vec<_> = self.columns(counts).map(|c| format!("{c:>8}")).collect();
        println!("{name:26}{:>9} {}", counts.sum(), columns.join(" "));
    }

    fn columns<'a>(&self, counts: &'a Counts) -> impl Iterator<Item = u64> + use<'a> {
        let counts = &counts.0;
        self.statuses.iter().map(|&status| counts[status as usize])
    }
}
