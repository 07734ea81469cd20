//! `plain run [--rows N]` and `plain soak [--count N]`: what querylog does, as a plain program with the locks, the maps
//! and the threads of std. Nothing of it is proved; `bench/run` measures querylog beside it.
//!
//! With `--log-rows` behind these, it also stores a log row for each write, as querylog must. Nobody reads them here: they
//! show what the rows alone cost.
//!
//! docs/SCRIPT.md says what a script is and how its log is written. Only well-formed scripts are answered with a log,
//! and most limits aren't looked at. Of any other script the first line that can't be read is told on standard error,
//! without its cause, and the status is 3. A run with one caller writes the bytes that querylog writes; with several
//! callers the schedule chooses among the logs that a script may have.

use std::cmp::Reverse;
use std::collections::binary_heap::PeekMut;
use std::collections::hash_map::Entry;
use std::collections::{BinaryHeap, HashMap};
use std::error::Error;
use std::fs::File;
use std::io::{self, Read, Write};
use std::os::fd::AsFd;
use std::process::ExitCode;
use std::sync::atomic::{AtomicU64, Ordering};
use std::sync::{Mutex, RwLock};
use std::time::Instant;
use std::{env, mem, thread};

/// So many bytes of the log are handed on at once.
const PIECE: usize = 1 << 16;
/// With its line feed.
const LONGEST_LINE: usize = 256;

/// The digits of 0 to 99.
const PAIRS: [[u8; 2]; 100] = {
    let mut pairs = [[0; 2]; 100];
    let mut number = 0;
    while number < 100 {
        pairs[number] = [b'0' + number as u8 / 10, b'0' + number as u8 % 10];
        number += 1;
    }
    pairs
};

#[derive(Clone, Copy)]
enum Verb {
    Get,
    Put,
    Add,
    Len,
    Del,
    Cas,
    Putlen,
    Move,
    Both,
    Tryget,
    Tryput,
    Getby,
    Putby,
    Give,
    Take,
    Audit,
}

impl Verb {
    /// Whether it changes a cell where it can.
    fn may_write(self) -> bool {
        use Verb::*;
        matches!(self, Put | Add | Del | Cas | Putlen | Move | Tryput | Putby)
    }
}

/// In the order of the verbs: each one's name, how many cells stand behind it, and how many numbers behind these.
const FORMS: [(Verb, &str, usize, usize); 16] = [
    (Verb::Get, "get", 1, 1),
    (Verb::Put, "put", 1, 2),
    (Verb::Add, "add", 1, 2),
    (Verb::Len, "len", 1, 0),
    (Verb::Del, "del", 1, 1),
    (Verb::Cas, "cas", 1, 3),
    (Verb::Putlen, "putlen", 1, 2),
    (Verb::Move, "move", 2, 2),
    (Verb::Both, "both", 2, 1),
    (Verb::Tryget, "tryget", 1, 1),
    (Verb::Tryput, "tryput", 1, 2),
    (Verb::Getby, "getby", 1, 2),
    (Verb::Putby, "putby", 1, 3),
    (Verb::Give, "give", 0, 2),
    (Verb::Take, "take", 0, 2),
    (Verb::Audit, "audit", 0, 0),
];

/// A query. What its verb doesn't name is 0.
#[derive(Clone, Copy)]
struct Query {
    verb: Verb,
    cells: [u8; 2],
    numbers: [u64; 3],
}

struct Script {
    cells: u8,
    callers: Vec<Vec<Query>>,
}

/// The bytes of a script that aren't read yet. Each step is None where they don't begin with what it takes.
struct Unread<'a>(&'a [u8]);

impl<'a> Unread<'a> {
    fn word(&mut self) -> &'a [u8] {
        let length = self.0.iter().position(|byte| *byte <= b' ').unwrap_or(self.0.len());
        let (word, rest) = self.0.split_at(length);
        self.0 = rest;
        word
    }

    /// A space and a number.
    fn number(&mut self) -> Option<u64> {
        let [b' ', text @ ..] = self.0 else { return None };
        let (mut value, mut rest) = (0u64, text);
        while let [digit @ b'0'..=b'9', after @ ..] = rest {
            let digit = u64::from(digit - b'0');
            // Nineteen digits always fit.
            let fits = text.len() - after.len() < 20;
            value = if fits {
                10 * value + digit
            } else {
                value.checked_mul(10)?.checked_add(digit)?
            };
            rest = after;
        }
        let length = text.len() - rest.len();
        self.0 = rest;
        (length == 1 || length > 1 && text[0] != b'0').then_some(value)
    }

    /// A space and a number that is below `end`.
    fn cell(&mut self, end: u8) -> Option<u8> {
        u8::try_from(self.number()?).ok().filter(|cell| *cell < end)
    }

    /// A line feed, or the end of the script.
    fn line_end(&mut self) -> Option<()> {
        match self.0 {
            [] => {}
            [b'\n', rest @ ..] => self.0 = rest,
            _ => return None,
        }
        Some(())
    }

    /// A query's line, of which the name is read already.
    fn query(&mut self, name: &[u8], cells: u8) -> Option<Query> {
        let (verb, _, cell_count, number_count) = *FORMS.iter().find(|form| form.1.as_bytes() == name)?;
        let mut query = Query {
            verb,
            cells: [0; 2],
            numbers: [0; 3],
        };
        for cell in &mut query.cells[..cell_count] {
            *cell = self.cell(cells)?;
        }
        for number in &mut query.numbers[..number_count] {
            *number = self.number()?;
        }
        self.line_end()?;
        Some(query)
    }

    fn script(&mut self) -> Option<Script> {
        let (b"cells", cells @ 1..) = (self.word(), self.cell(65)?) else {
            return None;
        };
        self.line_end()?;
        let mut callers: Vec<Vec<Query>> = Vec::new();
        while !self.0.is_empty() {
            match self.word() {
                b"caller" => {
                    self.line_end()?;
                    callers.push(Vec::new());
                }
                name => callers.last_mut()?.push(self.query(name, cells)?),
            }
        }
        Some(Script { cells, callers })
    }
}

/// Among which lines of the log a reply stands.
#[derive(Clone, Copy, PartialEq)]
enum Kind {
    Map,
    Refusal,
    Job,
}

#[derive(Clone, Copy)]
enum Answer {
    // Of the cells, which are as they were.
    Found(Option<u64>),
    Both(Option<u64>, Option<u64>),
    Count(usize),
    Same,
    No(u64),
    Over,
    Full,
    Short(u64),
    // Of the cells, which were changed.
    New,
    NewCount(usize),
    Old(u64),
    OldCount(u64, usize),
    Now(u64),
    Yes,
    Moved,
    // Refusals.
    Busy,
    Late(u64),
    // Of the ledger.
    Balance(u64),
    ErrOver,
    ErrFull,
    ErrShort(u64),
    /// The upper and the lower half of the sum.
    Sum(u64, u64),
}

impl Answer {
    fn at(self, place: u64) -> Reply {
        Reply { place, answer: self }
    }

    fn is_write(self) -> bool {
        use Answer::*;
        matches!(self, New | NewCount(_) | Old(_) | OldCount(..) | Now(_) | Yes | Moved)
    }

    fn kind(self) -> Kind {
        use Answer::*;
        match self {
            Busy | Late(_) => Kind::Refusal,
            Balance(_) | ErrOver | ErrFull | ErrShort(_) | Sum(..) => Kind::Job,
            _ => Kind::Map,
        }
    }
}

/// An answer, and its place among those of its kind. A refusal has none, and 0 here.
#[derive(Clone, Copy)]
struct Reply {
    place: u64,
    answer: Answer,
}

type Map = HashMap<u64, u64>;

fn put(map: &mut Map, rows: usize, key: u64, value: u64) -> Answer {
    let has_room = map.len() < rows;
    match map.entry(key) {
        Entry::Occupied(mut entry) => Answer::Old(entry.insert(value)),
        Entry::Vacant(entry) if has_room => {
            entry.insert(value);
            Answer::New
        }
        Entry::Vacant(_) => Answer::Full,
    }
}

fn put_and_count(map: &mut Map, rows: usize, key: u64, value: u64) -> Answer {
    match put(map, rows, key, value) {
        Answer::Old(old) => Answer::OldCount(old, map.len()),
        Answer::New => Answer::NewCount(map.len()),
        full => full,
    }
}

fn add(map: &mut Map, rows: usize, key: u64, amount: u64) -> Answer {
    let has_room = map.len() < rows;
    match map.entry(key) {
        Entry::Occupied(mut entry) => {
            let Some(sum) = entry.get().checked_add(amount) else {
                return Answer::Over;
            };
            entry.insert(sum);
            Answer::Now(sum)
        }
        Entry::Vacant(entry) if has_room => Answer::Now(*entry.insert(amount)),
        Entry::Vacant(_) => Answer::Full,
    }
}

fn compare_and_set(map: &mut Map, key: u64, old: u64, new: u64) -> Answer {
    match map.get_mut(&key) {
        None => Answer::Found(None),
        Some(value) if *value == old => {
            *value = new;
            Answer::Yes
        }
        Some(value) => Answer::No(*value),
    }
}

/// Takes from the value of a key, where absent counts as 0 and stays so: what is left, or what was too little.
fn take(map: &mut Map, key: u64, amount: u64) -> Result<u64, u64> {
    match map.get_mut(&key) {
        Some(value) => {
            *value = value.checked_sub(amount).ok_or(*value)?;
            Ok(*value)
        }
        None if amount == 0 => Ok(0),
        None => Err(0),
    }
}

fn transfer(from: &mut Map, to: &mut Map, rows: usize, key: u64, amount: u64) -> Answer {
    let before = from.get(&key).copied().unwrap_or(0);
    if before < amount {
        return Answer::Short(before);
    }
    match add(to, rows, key, amount) {
        Answer::Now(_) => take(from, key, amount).map_or_else(Answer::Short, |_| Answer::Moved),
        over_or_full => over_or_full,
    }
}

#[derive(Default)]
struct Ledger {
    accounts: Map,
    sum: u128,
    jobs: u64,
}

impl Ledger {
    fn give(&mut self, rows: usize, key: u64, amount: u64) -> Answer {
        match add(&mut self.accounts, rows, key, amount) {
            Answer::Now(balance) => {
                self.sum += u128::from(amount);
                Answer::Balance(balance)
            }
            Answer::Over => Answer::ErrOver,
            _ => Answer::ErrFull,
        }
    }

    fn take(&mut self, key: u64, amount: u64) -> Answer {
        match take(&mut self.accounts, key, amount) {
            Ok(balance) => {
                self.sum -= u128::from(amount);
                Answer::Balance(balance)
            }
            Err(balance) => Answer::ErrShort(balance),
        }
    }

    fn audit(&self) -> Answer {
        Answer::Sum((self.sum >> 64) as u64, self.sum as u64)
    }
}

/// What stands on cache lines of its own, so that callers meet only where their queries do.
#[derive(Default)]
#[repr(align(64))]
struct Apart<T>(T);

/// What was asked in one write, a word at a time, as other threads may read it while it is written.
type LogRow = [AtomicU64; 8];

/// What the callers share. No lock is ever poisoned, since a panic ends the program.
struct Server {
    rows: usize,
    /// One for each write that there may be, or none where none are kept.
    log_rows: Vec<LogRow>,
    began: Instant,
    cells: Vec<Apart<RwLock<Map>>>,
    /// How many writes were done. It is read and raised while a cell is held. The cell's lock shows its next holder all
    /// that was done before, so nobody sees a number there that is too small, and the loosest order is enough.
    writes: Apart<AtomicU64>,
    ledger: Apart<Mutex<Ledger>>,
}

impl Server {
    fn new(cells: u8, rows: usize, writes: usize, began: Instant) -> Server {
        let cells = (0..cells).map(|_| Apart::default()).collect();
        Server {
            rows,
            log_rows: (0..writes).map(|_| LogRow::default()).collect(),
            began,
            cells,
            writes: Apart::default(),
            ledger: Apart::default(),
        }
    }

    /// Asks each caller's queries in a thread of its own.
    fn run(&self, callers: &[Vec<Query>]) -> Vec<Vec<Reply>> {
        let work = |caller: usize, queries: &[Query]| {
            let ask_nth = |(index, query)| {
                let reply = self.ask(query);
                self.keep(caller, index, query, reply);
                reply
            };
            queries.iter().enumerate().map(ask_nth).collect()
        };
        thread::scope(|scope| {
            let threads: Vec<_> = callers
                .iter()
                .enumerate()
                .map(|(caller, queries)| scope.spawn(move || work(caller, queries)))
                .collect();
            threads.into_iter().map(|thread| thread.join().unwrap()).collect()
        })
    }

    /// Stores the log row of a write, where log rows are kept. querylog does so while the cell is held; it costs the same.
    fn keep(&self, caller: usize, index: usize, query: &Query, Reply { place, answer }: Reply) {
        if self.log_rows.is_empty() || !answer.is_write() {
            return;
        }
        let Query { verb, cells, numbers } = *query;
        let [one, two] = cells.map(u64::from);
        let [key, value, last] = numbers;
        let words = [caller as u64, index as u64, verb as u64, one, two, key, value, last];
        for (word, now) in self.log_rows[place as usize / 2].iter().zip(words) {
            word.store(now, Ordering::SeqCst);
        }
    }

    #[inline(never)]
    fn ask(&self, query: &Query) -> Reply {
        let Query {
            verb,
            cells: [cell, other],
            numbers: [key, value, last],
        } = *query;
        let rows = self.rows;
        match verb {
            Verb::Get => self.read(cell, |map| Answer::Found(map.get(&key).copied())),
            Verb::Len => self.read(cell, |map| Answer::Count(map.len())),
            Verb::Put => self.write(cell, |map| put(map, rows, key, value)),
            Verb::Del => self.write(cell, |map| map.remove(&key).map_or(Answer::Found(None), Answer::Old)),
            Verb::Add => self.write(cell, |map| add(map, rows, key, value)),
            // std has no upgrade, so this holds its cell exclusively from the beginning.
            Verb::Cas => self.write(cell, |map| compare_and_set(map, key, value, last)),
            Verb::Putlen => self.write(cell, |map| put_and_count(map, rows, key, value)),
            Verb::Move | Verb::Both if cell == other => self.placed(Answer::Same),
            Verb::Move => self.transfer(cell, other, key, value),
            Verb::Both => self.both(cell, other, key),
            Verb::Tryget => self.try_get(cell, key).unwrap_or(Answer::Busy.at(0)),
            Verb::Tryput => self.try_put(cell, key, value).unwrap_or(Answer::Busy.at(0)),
            Verb::Getby => self.until(value, || self.try_get(cell, key)),
            Verb::Putby => self.until(last, || self.try_put(cell, key, value)),
            Verb::Give => self.job(|ledger| ledger.give(rows, key, value)),
            Verb::Take => self.job(|ledger| ledger.take(key, value)),
            Verb::Audit => self.job(|ledger| ledger.audit()),
        }
    }

    /// Gives an answer its place, while the cells that it is about are still held.
    fn placed(&self, answer: Answer) -> Reply {
        if answer.is_write() {
            answer.at(2 * self.writes.0.fetch_add(1, Ordering::Relaxed) + 1)
        } else {
            answer.at(2 * self.writes.0.load(Ordering::Relaxed))
        }
    }

    fn lock(&self, cell: u8) -> &RwLock<Map> {
        &self.cells[usize::from(cell)].0
    }

    fn read(&self, cell: u8, look: impl FnOnce(&Map) -> Answer) -> Reply {
        let map = self.lock(cell).read().unwrap();
        self.placed(look(&map))
    }

    fn write(&self, cell: u8, change: impl FnOnce(&mut Map) -> Answer) -> Reply {
        let mut map = self.lock(cell).write().unwrap();
        self.placed(change(&mut map))
    }

    fn try_get(&self, cell: u8, key: u64) -> Option<Reply> {
        let map = self.lock(cell).try_read().ok()?;
        Some(self.placed(Answer::Found(map.get(&key).copied())))
    }

    fn try_put(&self, cell: u8, key: u64, value: u64) -> Option<Reply> {
        let mut map = self.lock(cell).try_write().ok()?;
        Some(self.placed(put(&mut map, self.rows, key, value)))
    }

    /// Tries until the deadline, since std's locks have no wait with a deadline.
    fn until(&self, deadline: u64, attempt: impl Fn() -> Option<Reply>) -> Reply {
        loop {
            if let Some(reply) = attempt() {
                return reply;
            }
            let now = self.began.elapsed().as_millis() as u64;
            if now >= deadline {
                return Answer::Late(now).at(0);
            }
            thread::yield_now();
        }
    }

    fn transfer(&self, from: u8, to: u8, key: u64, amount: u64) -> Reply {
        // Two cells are taken in the order of their numbers, so that no two callers wait for each other.
        let mut source = self.lock(from.min(to)).write().unwrap();
        let mut target = self.lock(from.max(to)).write().unwrap();
        if from > to {
            mem::swap(&mut source, &mut target);
        }
        self.placed(transfer(&mut source, &mut target, self.rows, key, amount))
    }

    fn both(&self, one: u8, two: u8, key: u64) -> Reply {
        let mut first = self.lock(one.min(two)).read().unwrap();
        let mut second = self.lock(one.max(two)).read().unwrap();
        if one > two {
            mem::swap(&mut first, &mut second);
        }
        self.placed(Answer::Both(first.get(&key).copied(), second.get(&key).copied()))
    }

    fn job(&self, work: impl FnOnce(&mut Ledger) -> Answer) -> Reply {
        let mut ledger = self.ledger.0.lock().unwrap();
        let place = ledger.jobs;
        ledger.jobs += 1;
        work(&mut ledger).at(place)
    }
}

/// A log on its way to standard output, in pieces. std's own buffer would look for line feeds.
struct Log {
    output: File,
    /// The first `length` bytes aren't handed on yet. Where a line begins there is always room for one.
    bytes: Box<[u8]>,
    length: usize,
}

impl Log {
    fn new() -> io::Result<Log> {
        let output = File::from(io::stdout().as_fd().try_clone_to_owned()?);
        Ok(Log {
            output,
            bytes: vec![0; PIECE + LONGEST_LINE].into(),
            length: 0,
        })
    }

    fn room(&mut self, length: usize) -> &mut [u8] {
        let begin = self.length;
        self.length += length;
        &mut self.bytes[begin..self.length]
    }

    fn text(&mut self, text: &str) {
        self.room(text.len()).copy_from_slice(text.as_bytes());
    }

    fn number(&mut self, number: u64) {
        if number < 10 {
            self.room(1)[0] = b'0' + number as u8;
            return;
        }
        let mut left = number;
        let mut pairs = self.room(1 + number.ilog10() as usize).rchunks_exact_mut(2);
        for pair in &mut pairs {
            pair.copy_from_slice(&PAIRS[(left % 100) as usize]);
            left /= 100;
        }
        if let [first] = pairs.into_remainder() {
            *first = b'0' + left as u8;
        }
    }

    fn text_and(&mut self, text: &str, number: u64) {
        self.text(text);
        self.number(number);
    }

    fn end_line(&mut self) -> io::Result<()> {
        self.text("\n");
        if self.length >= PIECE {
            self.hand_on()?;
        }
        Ok(())
    }

    fn hand_on(&mut self) -> io::Result<()> {
        self.output.write_all(&self.bytes[..self.length])?;
        self.length = 0;
        Ok(())
    }

    fn query(&mut self, query: &Query) {
        let (_, name, cell_count, number_count) = FORMS[query.verb as usize];
        self.text(name);
        for cell in &query.cells[..cell_count] {
            self.text_and(" ", u64::from(*cell));
        }
        for number in &query.numbers[..number_count] {
            self.text_and(" ", *number);
        }
    }

    fn found(&mut self, value: Option<u64>) {
        match value {
            Some(value) => self.text_and("some ", value),
            None => self.text("none"),
        }
    }

    fn answer(&mut self, answer: Answer) {
        match answer {
            Answer::Found(value) => self.found(value),
            Answer::Both(first, second) => {
                self.found(first);
                self.text(" ");
                self.found(second);
            }
            Answer::Count(count) => self.number(count as u64),
            Answer::Same => self.text("same"),
            Answer::No(value) => self.text_and("no ", value),
            Answer::Over => self.text("over"),
            Answer::Full => self.text("full"),
            Answer::Short(value) => self.text_and("short ", value),
            Answer::New => self.text("new"),
            Answer::NewCount(count) => self.text_and("new ", count as u64),
            Answer::Old(value) => self.text_and("old ", value),
            Answer::OldCount(value, count) => {
                self.text_and("old ", value);
                self.text_and(" ", count as u64);
            }
            Answer::Now(value) | Answer::Balance(value) => self.text_and("now ", value),
            Answer::Yes => self.text("yes"),
            Answer::Moved => self.text("moved"),
            Answer::Busy => self.text("busy"),
            Answer::Late(now) => self.text_and("late ", now),
            Answer::ErrOver => self.text("err over"),
            Answer::ErrFull => self.text("err full"),
            Answer::ErrShort(balance) => self.text_and("err short ", balance),
            Answer::Sum(upper, lower) => self.text(&format!("sum {}", u128::from(upper) << 64 | u128::from(lower))),
        }
    }

    /// Writes a line for each reply of a kind, ordered by place, caller and index. Each caller's replies are in that
    /// order already, so it is enough to choose the first of the callers' next ones again and again.
    #[inline(never)]
    fn replies(&mut self, kind: Kind, script: &Script, replies: &[Vec<Reply>]) -> io::Result<()> {
        let next_of = |caller: usize, from: usize| {
            let mut later = replies[caller].iter().enumerate().skip(from);
            let (index, reply) = later.find(|(_, reply)| reply.answer.kind() == kind)?;
            Some(Reverse((reply.place, caller, index)))
        };
        let mut next: BinaryHeap<_> = (0..replies.len()).filter_map(|caller| next_of(caller, 0)).collect();
        while let Some(mut first) = next.peek_mut() {
            let Reverse((place, caller, index)) = *first;
            match kind {
                Kind::Map => self.text_and("map ", place),
                Kind::Refusal => self.text("ref"),
                Kind::Job => self.text_and("job ", place),
            }
            self.text_and(" ", caller as u64);
            self.text_and(" ", index as u64);
            self.text(" ");
            self.query(&script.callers[caller][index]);
            self.text(" = ");
            self.answer(replies[caller][index].answer);
            self.end_line()?;
            match next_of(caller, index + 1) {
                Some(later) => *first = later,
                None => drop(PeekMut::pop(first)),
            }
        }
        Ok(())
    }

    fn totals(&mut self, replies: &[Vec<Reply>]) -> io::Result<()> {
        let (mut writes, mut reads, mut refused, mut jobs) = (0, 0, 0, 0);
        for reply in replies.iter().flatten() {
            match reply.answer.kind() {
                Kind::Map if reply.answer.is_write() => writes += 1,
                Kind::Map => reads += 1,
                Kind::Refusal => refused += 1,
                Kind::Job => jobs += 1,
            }
        }
        let queries = writes + reads + refused + jobs;
        self.text(&format!(
            "queries {queries}\nwrites {writes}\nreads {reads}\nrefused {refused}\njobs {jobs}"
        ));
        self.end_line()
    }
}

// Kept apart, as `replies` is, so that a profile tells reading from printing.
#[inline(never)]
fn read_script() -> Result<Script, Box<dyn Error>> {
    let mut input = Vec::new();
    // A file tells its length, so that the vector is made once.
    File::from(io::stdin().as_fd().try_clone_to_owned()?).read_to_end(&mut input)?;
    let mut unread = Unread(&input);
    unread.script().ok_or_else(|| {
        let read = &input[..input.len() - unread.0.len()];
        let line = 1 + read.iter().filter(|byte| **byte == b'\n').count();
        format!("line {line} can't be read").into()
    })
}

fn run(rows: usize, keeps_log: bool) -> Result<(), Box<dyn Error>> {
    let began = Instant::now();
    let script = read_script()?;
    let queries = script.callers.iter().flatten();
    let writes = queries.filter(|query| keeps_log && query.verb.may_write()).count();
    let replies = Server::new(script.cells, rows, writes, began).run(&script.callers);
    let mut log = Log::new()?;
    log.text_and("querylog 1\ncells ", u64::from(script.cells));
    log.text_and(" rows ", rows as u64);
    log.text_and(" callers ", replies.len() as u64);
    log.end_line()?;
    for kind in [Kind::Map, Kind::Refusal, Kind::Job] {
        log.replies(kind, &script, &replies)?;
    }
    log.totals(&replies)?;
    log.text("end\n");
    Ok(log.hand_on()?)
}

/// Query number `number` of a soak, which is one of caller `number % 4`.
fn soak_query(number: u64) -> Query {
    let (turn, caller) = (number / 4, number % 4);
    let key = (5 * turn + caller) % 16;
    let (verb, numbers) = match turn % 4 {
        0 => (Verb::Get, [key, 0, 0]),
        1 => (Verb::Add, [key, 1 + number % 7, 0]),
        2 => (Verb::Len, [0; 3]),
        _ => (Verb::Give, [key, 1, 0]),
    };
    Query {
        verb,
        cells: [((turn / 4 + caller) % 8) as u8, 0],
        numbers,
    }
}

fn soak(count: u64, keeps_log: bool) -> Result<(), Box<dyn Error>> {
    let queries_of = |caller| (caller..count).step_by(4).map(soak_query).collect();
    let callers: Vec<Vec<Query>> = (0..4).map(queries_of).collect();
    let queries = callers.iter().flatten();
    let writes = queries.filter(|query| keeps_log && query.verb.may_write()).count();
    let server = Server::new(8, 16, writes, Instant::now());
    let replies = server.run(&callers);
    let mut sum = 0;
    for cell in &server.cells {
        let map = cell.0.read().unwrap();
        sum += map.values().map(|value| u128::from(*value)).sum::<u128>();
    }
    let ledger = server.ledger.0.lock().unwrap().sum;
    let mut log = Log::new()?;
    log.text(&format!("soak {count}\n"));
    log.totals(&replies)?;
    log.text(&format!("sum {sum}\nledger {ledger}\nend\n"));
    Ok(log.hand_on()?)
}

fn main() -> ExitCode {
    let words: Vec<String> = env::args().skip(1).collect();
    let words: Vec<&str> = words.iter().map(String::as_str).collect();
    let (words, keeps_log) = match &words[..] {
        [words @ .., "--log-rows"] => (words, true),
        words => (words, false),
    };
    let done = match *words {
        ["run"] => run(1024, keeps_log),
        ["run", "--rows", rows] => rows.parse().map_err(Box::from).and_then(|rows| run(rows, keeps_log)),
        ["soak"] => soak(1000, keeps_log),
        ["soak", "--count", count] => count
            .parse()
            .map_err(Box::from)
            .and_then(|count| soak(count, keeps_log)),
        _ => {
            eprintln!("plain run [--rows N], or plain soak [--count N], each with or without --log-rows behind it");
            return ExitCode::from(2);
        }
    };
    match done {
        Ok(()) => ExitCode::SUCCESS,
        Err(error) => {
            eprintln!("plain: {error}");
            ExitCode::from(3)
        }
    }
}
