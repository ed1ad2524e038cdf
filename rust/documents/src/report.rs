//! What was checked: how many things were right, and what was wrong.
#[derive(Default)]
pub struct Report {
    pub passed: usize,
    pub failures: Vec<String>,
}

impl Report {
    pub fn fail(&mut self, failure: String) {
        self.failures.push(failure);
    }

    /// One thing that was looked at, and where: passed where it has no fault.
    pub fn thing(&mut self, place: &str, faults: Vec<String>) {
        if faults.is_empty() {
            self.passed += 1;
        }
        let told = faults.iter().map(|fault| format!("{place}: {fault}"));
        self.failures.extend(told);
    }

    /// Both together.
    pub fn and(mut self, more: Report) -> Report {
        self.passed += more.passed;
        self.failures.extend(more.failures);
        self
    }

    /// A line for each failure, and the count.
    pub fn print(&self, label: &str) {
        for failure in &self.failures {
            println!("FAILED {label}: {failure}");
        }
        println!("{} passed, {} failed", self.passed, self.failures.len());
    }
}
