//! A live strip: reads lines of a court box as they come (`14 away out Nandini`), gathers them into batches, and shows who is out.
//!
//!     cargo run --example strip [--rows N] [--pause MS] [--json] [--page FILE.html] < LINES
//!
//! A batch is complete at N rows (4), when no line came for MS milliseconds (1,000), or at the end. On a terminal the strip is drawn in place;
//! else a frame a batch is printed, or with `--json` a line a batch. `--page` also keeps a page for a browser. A line that is no row, and a
//! row that the strip refuses, is told on standard error by its line; the rest goes on, and the exit status is then 1.

#[path = "strip/board.rs"]
mod board;
#[path = "strip/lines.rs"]
mod lines;
#[path = "strip/page.rs"]
mod page;
#[path = "strip/screen.rs"]
mod screen;

use board::Board;
use puffwidget::{BatchCoalescer, Error, MatchRows, SetUp, Strip};
use std::collections::VecDeque;
use std::io::{self, IsTerminal, Write};
use std::path::PathBuf;
use std::process::ExitCode;
use std::sync::mpsc::{Receiver, RecvTimeoutError, sync_channel};
use std::time::{Duration, Instant};

const USAGE: &str = "usage: strip [--rows N (1 to 8192)] [--pause MS] [--json] [--page FILE.html] < LINES";

/// How the strip is shown.
#[derive(Clone, Copy, PartialEq, Eq)]
enum Screen {
    Frames,
    InPlace,
    Json,
}

/// What was asked for.
struct Options {
    rows: u32,
    pause: Duration,
    screen: Screen,
    page: Option<PathBuf>,
}

fn options() -> Option<Options> {
    let screen = if io::stdout().is_terminal() { Screen::InPlace } else { Screen::Frames };
    let mut options = Options { rows: 4, pause: Duration::from_millis(1_000), screen, page: None };
    let mut words = std::env::args_os().skip(1);
    while let Some(word) = words.next() {
        match word.to_str()? {
            "--json" => options.screen = Screen::Json,
            "--page" => options.page = Some(words.next()?.into()),
            "--rows" => options.rows = words.next()?.to_str()?.parse().ok().filter(|rows| (1..=8_192).contains(rows))?,
            "--pause" => options.pause = Duration::from_millis(words.next()?.to_str()?.parse().ok()?),
            _ => return None,
        }
    }
    Some(options)
}

/// A line by its number, or why it can't be read; input that can't be read ends it.
type Heard = (u64, Result<Vec<u8>, String>);

/// Lines in a thread of their own, so that a pause is heard.
fn heard() -> Receiver<Heard> {
    let (send, receive) = sync_channel(64);
    std::thread::spawn(move || {
        let mut input = io::stdin().lock();
        for number in 1.. {
            let line = match lines::next(&mut input) {
                Ok(None) => return,
                Ok(Some(line)) => line,
                Err(error) => {
                    let _ = send.send((number, Err(format!("input can't be read: {error}"))));
                    return;
                }
            };
            if send.send((number, line)).is_err() {
                return;
            }
        }
    });
    receive
}

/// The court: rows in, the strip behind them.
struct Court {
    options: Options,
    coalescer: BatchCoalescer,
    strip: Strip,
    board: Board,
    /// line and number of the rows that wait, which come out in their order
    rows: VecDeque<(u64, u64)>,
    faults: usize,
}

impl Court {
    fn new(options: Options) -> Result<Court, Error> {
        let set_up = SetUp { pool: 4 << 20, ..SetUp::new(&Strip::KINDS, options.rows) };
        let coalescer = BatchCoalescer::new(&set_up)?;
        Ok(Court { options, coalescer, strip: Strip::new(), board: Board::default(), rows: VecDeque::new(), faults: 0 })
    }

    /// A fault, told once on standard error, with what to do where there is more to say, and kept for the board.
    fn tell(&mut self, line: u64, fault: &str, more: &str) {
        self.faults += 1;
        eprintln!("line {line}: {fault}{more}");
        self.board.tell(format!("line {line}: {fault}"));
    }

    /// One line: its row pushed, and the batch taken that it completes.
    fn line(&mut self, (number, line): Heard) -> Result<(), Box<dyn std::error::Error>> {
        match line.and_then(|line| lines::row(&line)) {
            Err(fault) => self.tell(number, &fault, ""),
            Ok(None) => {}
            Ok(Some(row)) => {
                let mut rows = MatchRows::new();
                rows.push(row.number, row.side, row.event, &row.name);
                self.coalescer.push(&rows.columns())?;
                self.rows.push_back((number, row.number));
            }
        }
        self.take()
    }

    /// No line for a while: what waits is a batch.
    fn pause(&mut self) -> Result<(), Box<dyn std::error::Error>> {
        self.coalescer.finish_buffered_batch()?;
        self.take()
    }

    /// Takes what is complete, and shows it.
    fn take(&mut self) -> Result<(), Box<dyn std::error::Error>> {
        while let Some(taken) = self.strip.take_batch(&mut self.coalescer)? {
            let mut refused = Vec::new();
            for answer in taken.rows() {
                let (line, row) = self.rows.pop_front().unwrap_or_default();
                if let Err(refusal) = answer {
                    refused.push((line, refusal.number()));
                    let fault = format!("row {row} refused ({}): {}", refusal.number(), refusal.happened());
                    self.tell(line, &fault, &format!("; {}", refusal.remedy()));
                }
            }
            self.board.see(&self.strip);
            self.board.waiting = self.coalescer.get_buffered_rows();
            match self.options.screen {
                Screen::Frames => say(&format!("---- rows to the strip: {}\n{}", taken.num_rows(), screen::frame(&self.board)))?,
                Screen::Json => say(&screen::json(&self.board, taken.num_rows(), &refused))?,
                Screen::InPlace => {}
            }
        }
        self.board.waiting = self.coalescer.get_buffered_rows();
        Ok(())
    }

    /// Draws the strip anew where it is drawn in place.
    fn draw(&self) -> io::Result<()> {
        if self.options.screen == Screen::InPlace {
            say(&screen::in_place(&self.board))?;
        }
        let Some(file) = &self.options.page else { return Ok(()) };
        page::write(&self.board, file).map_err(|error| io::Error::other(format!("{} can't be written: {error}", file.display())))
    }
}

/// Text on standard output, at once.
fn say(text: &str) -> io::Result<()> {
    let mut out = io::stdout().lock();
    let said = out.write_all(text.as_bytes()).and_then(|()| out.flush());
    said.map_err(|error| io::Error::other(format!("output can't be written: {error}")))
}

/// Lines until there are no more. What is drawn in place is drawn before a wait, and five times a second where there is none.
fn run(options: Options) -> Result<usize, Box<dyn std::error::Error>> {
    let (pause, mut court, heard) = (options.pause, Court::new(options)?, heard());
    court.draw()?;
    let (mut drawn, mut as_drawn) = (Instant::now(), true);
    loop {
        let mut next = heard.try_recv().map_err(|_| RecvTimeoutError::Timeout);
        if !as_drawn && (next.is_err() || drawn.elapsed() > Duration::from_millis(200)) {
            court.draw()?;
            (drawn, as_drawn) = (Instant::now(), true);
        }
        if next.is_err() {
            next = heard.recv_timeout(pause);
        }
        match next {
            Ok(line) => court.line(line)?,
            Err(RecvTimeoutError::Timeout) if court.board.waiting > 0 => court.pause()?,
            Err(RecvTimeoutError::Timeout) => continue,
            Err(RecvTimeoutError::Disconnected) => break,
        }
        as_drawn = false;
    }
    court.pause()?;
    court.draw()?;
    Ok(court.faults)
}

fn main() -> ExitCode {
    let Some(options) = options() else {
        eprintln!("{USAGE}");
        return ExitCode::from(2);
    };
    match run(options) {
        Ok(0) => ExitCode::SUCCESS,
        Ok(_) => ExitCode::from(1),
        Err(error) => {
            eprintln!("strip: {error}");
            ExitCode::from(1)
        }
    }
}
