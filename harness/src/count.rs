//! What passed and what failed.

/// How many comparisons passed and failed, and over how many events.
#[derive(Default)]
pub struct Count {
    pub passed: u64,
    pub failed: u64,
    pub events: u64,
}

impl Count {
    /// One comparison; what is wrong is told only where it failed.
    pub fn note(&mut self, right: bool, wrong: impl FnOnce() -> String) {
        if right {
            self.passed += 1;
        } else {
            self.failed += 1;
            println!("{}", wrong());
        }
    }

    /// Prints the last line, and says whether all passed.
    pub fn finish(&self) -> bool {
        println!("{} events", self.events);
        println!("{} passed, {} failed", self.passed, self.failed);
        self.failed == 0
    }
}
