//! The board that a script asks and reports to.

/// The refusals of a board.
#[derive(Clone, Copy, Debug, PartialEq, Eq)]
pub enum BoardRefusal {
    /// There is no such zone.
    NoZone,
    /// The reports are as many as are allowed.
    NoMoreReports,
}

impl BoardRefusal {
    /// The number that stands for the refusal.
    pub fn number(self) -> i32 {
        match self {
            BoardRefusal::NoZone => 23,
            BoardRefusal::NoMoreReports => 24,
        }
    }
}

/// Zones to read, reports to file.
#[derive(Clone, Debug)]
pub struct Board {
    columns: i32,
    rows: i32,
    zones: Vec<i32>,
    reports: Vec<i32>,
    allowance: usize,
}

impl Board {
    /// The board of the program: 4 columns, 3 rows, zone i = 10 i, 16 reports.
    pub fn fixed() -> Board {
        Board {
            columns: 4,
            rows: 3,
            zones: (0..12).map(|zone| 10 * zone).collect(),
            reports: Vec::new(),
            allowance: 16,
        }
    }

    /// The number of columns.
    pub fn columns(&self) -> i32 {
        self.columns
    }

    /// The number of rows.
    pub fn rows(&self) -> i32 {
        self.rows
    }

    /// The figure of a zone, from 0.
    pub fn zone(&self, index: i32) -> Result<i32, BoardRefusal> {
        let index = usize::try_from(index).map_err(|_| BoardRefusal::NoZone)?;
        self.zones.get(index).copied().ok_or(BoardRefusal::NoZone)
    }

    /// Files a report.
    pub fn report(&mut self, value: i32) -> Result<(), BoardRefusal> {
        if self.reports.len() >= self.allowance {
            return Err(BoardRefusal::NoMoreReports);
        }
        self.reports.push(value);
        Ok(())
    }

    /// The reports filed so far.
    pub fn reports(&self) -> &[i32] {
        &self.reports
    }
}
