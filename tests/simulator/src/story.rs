//! What happened, a line a step, if anyone wants to read it.

pub struct Story {
    lines: Option<Vec<String>>,
    /// Thousandths of a second since the day began, where there is a clock.
    pub clock: Option<u64>,
    ended: bool,
}

impl Story {
    /// A story that is told, or one that nobody asked for.
    pub fn new(told: bool) -> Story {
        Story { lines: told.then(Vec::new), clock: None, ended: false }
    }

    pub fn tell(&mut self, line: impl FnOnce() -> String) {
        let (clock, ended) = (self.clock, self.ended);
        if let Some(lines) = self.lines.as_mut().filter(|_| !ended) {
            lines.push(clock.map_or(String::new(), time) + &line());
        }
    }

    /// Tells the last line.
    pub fn end(&mut self, line: impl FnOnce() -> String) {
        self.tell(line);
        self.ended = true;
    }

    pub fn lines(&self) -> &[String] {
        self.lines.as_deref().unwrap_or_default()
    }
}

fn time(clock: u64) -> String {
    let seconds = clock / 1000;
    format!("{:02}:{:02}:{:02}.{:03} ", seconds / 3600, seconds / 60 % 60, seconds % 60, clock % 1000)
}
