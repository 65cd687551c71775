//! The lines of the day, and the line that says how far it is: it moves on a terminal, and is printed now and then elsewhere.

use crate::words::clock;
use simulator::day::HOURS;
use simulator::net::{Time, HOUR, MINUTE};
use std::io::{stdout, Write};
use std::thread::sleep;
use std::time::Duration;

/// On a terminal an hour and a line take so many milliseconds, and the moving line moves so often in an hour.
const HOUR_TAKES: u64 = 700;
const LINE_TAKES: u64 = 150;
const MOVES: u64 = 12;
/// Elsewhere the line is printed after so many hours.
const SELDOM: Time = 6 * HOUR;
const WIDTH: u64 = 12;

pub struct Screen {
    live: bool,
    now: Time,
}

impl Screen {
    pub fn new(live: bool) -> Screen {
        Screen { live, now: 0 }
    }

    /// Lets the clock run to a time.
    pub fn run_to(&mut self, time: Time, status: &str) {
        let step = if self.live { HOUR / MOVES } else { SELDOM };
        while self.now / step < time / step {
            self.now = (self.now / step + 1) * step;
            if self.live {
                sleep(Duration::from_millis(HOUR_TAKES / MOVES));
                self.draw(status);
            } else {
                println!("{}", self.progress(status));
            }
        }
        self.now = time;
    }

    /// A line of the day.
    pub fn tell(&mut self, words: &str, status: &str) {
        self.clear();
        println!("{}  {words}", clock(self.now));
        if self.live {
            self.draw(status);
            sleep(Duration::from_millis(LINE_TAKES));
        }
    }

    /// Takes the moving line away.
    pub fn clear(&self) {
        if self.live {
            print!("\r\x1b[K");
        }
    }

    fn draw(&self, status: &str) {
        print!("\r\x1b[K{}", self.progress(status));
        stdout().flush().expect("the terminal is there");
    }

    fn progress(&self, status: &str) -> String {
        let done = (self.now * WIDTH / (Time::from(HOURS) * HOUR)) as usize;
        let (bar, rest) = ("=".repeat(done), " ".repeat(WIDTH as usize - done));
        let minutes = self.now / MINUTE;
        format!("[{bar}{rest}] {:02}:{:02}  {status}", minutes / 60, minutes % 60)
    }
}
