//! A plain program that does the job of `slate` on the scripts of the benchmark: the same commands, replies and
//! answers, over std's maps, without a proof. It knows no failing store and no limit of memory.
use std::collections::BTreeMap;
use std::fmt::Write as _;
use std::io::{Read, Write};
use std::ops::Bound;
use std::rc::Rc;

#[derive(Clone)]
struct Row {
    value: Rc<[u8]>,
    number: u64,
    created: i64,
}

struct Batch {
    key: Rc<[u8]>,
    row: Row,
}

type Rows = BTreeMap<Rc<[u8]>, Row>;

/// What a manifest says: the epoch of the last opening, the tables in order, and the log file that a replay begins with.
#[derive(Clone, Default)]
struct Manifest {
    epoch: u64,
    tables: Vec<u64>,
    first_log: u64,
}

/// Manifests, tables and log files by their numbers. The manifest with the greatest one counts; the others, and what it
/// doesn't name, stay until a sweep.
#[derive(Default)]
struct Store {
    manifests: BTreeMap<u64, Manifest>,
    tables: BTreeMap<u64, Rc<Rows>>,
    logs: BTreeMap<u64, Rc<Vec<Batch>>>,
}

/// Tables in order, and what isn't in them.
struct Handle {
    tables: Vec<Rc<Rows>>,
    rows: Rows,
    unflushed: Vec<Batch>,
    last: u64,
    tick: i64,
    epoch: u64,
    durable: u64,
}

struct Follower {
    rows: Rows,
    number: u64,
    /// The log file that its next poll begins with.
    next_log: u64,
}

enum Object {
    Handle(Handle),
    Follower(Follower),
}

impl Store {
    /// The latest manifest; an empty one where there is none.
    fn latest(&self) -> Manifest {
        self.manifests.last_key_value().map(|(_, latest)| latest.clone()).unwrap_or_default()
    }

    fn commit(&mut self, manifest: Manifest) {
        self.manifests.insert(after_last(&self.manifests), manifest);
    }

    /// The number of the next log file.
    fn next_log(&self, latest: &Manifest) -> u64 {
        after_last(&self.logs).max(latest.first_log)
    }

    fn put_log(&mut self, latest: &Manifest, batches: Vec<Batch>) {
        self.logs.insert(self.next_log(latest), Rc::new(batches));
    }

    fn put_table(&mut self, rows: Rows) -> u64 {
        let number = after_last(&self.tables);
        self.tables.insert(number, Rc::new(rows));
        number
    }

    /// The tables that a manifest names, shared.
    fn tables_of(&self, manifest: &Manifest) -> Vec<Rc<Rows>> {
        manifest.tables.iter().map(|number| self.tables[number].clone()).collect()
    }

    /// Applies the log files from one on; the number of the last batch.
    fn replay(&self, from: u64, rows: &mut Rows, mut last: u64, tick: &mut i64) -> u64 {
        for (_, log) in self.logs.range(from..) {
            for batch in log.iter() {
                rows.insert(batch.key.clone(), batch.row.clone());
                last = batch.row.number;
                *tick = (*tick).max(batch.row.created);
            }
        }
        last
    }

    fn open(&mut self) -> Handle {
        let mut latest = self.latest();
        latest.epoch += 1;
        self.commit(latest.clone());
        self.put_log(&latest, Vec::new());
        let mut rows = Rows::new();
        let mut tick = i64::MIN;
        let last = self.replay(latest.first_log, &mut rows, 0, &mut tick);
        let tables = self.tables_of(&latest);
        Handle { tables, rows, unflushed: Vec::new(), last, tick, epoch: latest.epoch, durable: last }
    }

    fn follow(&self) -> Follower {
        let mut follower = Follower { rows: Rows::new(), number: 0, next_log: 0 };
        self.poll(&mut follower);
        follower
    }

    fn poll(&self, follower: &mut Follower) {
        let mut tick = i64::MIN;
        follower.number = self.replay(follower.next_log, &mut follower.rows, follower.number, &mut tick);
        follower.next_log = after_last(&self.logs);
    }

    /// Removes what the latest manifest doesn't need.
    fn sweep(&mut self) {
        let latest = self.latest();
        self.tables.retain(|number, _| latest.tables.contains(number));
        self.logs.retain(|number, _| latest.first_log <= *number);
        let last = after_last(&self.manifests);
        self.manifests.retain(|number, _| *number + 1 == last);
    }
}

/// The number after the last one.
fn after_last<V>(objects: &BTreeMap<u64, V>) -> u64 {
    objects.last_key_value().map_or(0, |(number, _)| number + 1)
}

fn put(handle: &mut Handle, moment: i64, key: &[u8], value: &[u8]) -> Option<u64> {
    if key.is_empty() || moment < handle.tick {
        return None;
    }
    handle.last += 1;
    handle.tick = moment;
    let row = Row { value: value.into(), number: handle.last, created: moment };
    let key: Rc<[u8]> = key.into();
    handle.rows.insert(key.clone(), row.clone());
    handle.unflushed.push(Batch { key, row });
    Some(handle.last)
}

/// Stores what isn't stored as a log file; the latest manifest, where no other handle was opened since.
fn flush(store: &mut Store, handle: &mut Handle) -> Option<Manifest> {
    let latest = store.latest();
    if handle.epoch < latest.epoch {
        return None;
    }
    if !handle.unflushed.is_empty() {
        store.put_log(&latest, std::mem::take(&mut handle.unflushed));
    }
    handle.durable = handle.last;
    Some(latest)
}

/// Stores what isn't in tables as a table; an opening then begins behind it.
fn flush_to_table(store: &mut Store, handle: &mut Handle) -> Option<Manifest> {
    let mut latest = flush(store, handle)?;
    if !handle.rows.is_empty() {
        let number = store.put_table(std::mem::take(&mut handle.rows));
        latest.tables.push(number);
        latest.first_log = store.next_log(&latest);
        store.commit(latest.clone());
    }
    handle.tables = store.tables_of(&latest);
    Some(latest)
}

/// Joins all tables into one.
fn compact(store: &mut Store, handle: &mut Handle) {
    let mut latest = store.latest();
    let mut joined = Rows::new();
    for table in store.tables_of(&latest) {
        joined.extend(table.iter().map(|(key, row)| (key.clone(), row.clone())));
    }
    latest.tables = vec![store.put_table(joined)];
    handle.tables = store.tables_of(&latest);
    store.commit(latest);
}

/// The row of a key, from memory or from the last table that has one.
fn find<'a>(handle: &'a Handle, key: &[u8]) -> Option<&'a Row> {
    handle.rows.get(key).or_else(|| handle.tables.iter().rev().find_map(|table| table.get(key)))
}

/// The bytes of a byte word.
fn read_word(word: &[u8]) -> Option<Vec<u8>> {
    if word == b"%" {
        return Some(Vec::new());
    }
    let mut out = Vec::with_capacity(word.len());
    let mut rest = word;
    while let [first, tail @ ..] = rest {
        if *first != b'%' {
            out.push(*first);
            rest = tail;
            continue;
        }
        let [high, low, tail @ ..] = tail else { return None };
        let digit = |byte: u8| (byte as char).to_digit(16);
        out.push((digit(*high)? * 16 + digit(*low)?) as u8);
        rest = tail;
    }
    Some(out)
}

fn write_word(out: &mut String, bytes: &[u8]) {
    if bytes.is_empty() {
        out.push('%');
    }
    for byte in bytes {
        if (0x21..=0x7e).contains(byte) && *byte != b'%' {
            out.push(*byte as char);
        } else {
            let _ = write!(out, "%{byte:02x}");
        }
    }
}

fn write_stamp(out: &mut String, row: &Row) {
    write_word(out, &row.value);
    let _ = writeln!(out, " number {} created {}", row.number, row.created);
}

fn write_row(out: &mut String, row: Option<&Row>) {
    match row {
        None => out.push_str("none\n"),
        Some(row) => {
            out.push_str("value ");
            write_stamp(out, row);
        }
    }
}

/// A bound of a range: `*`, or `[` or `(` and a byte word.
fn read_bound(word: &[u8]) -> Option<Bound<Vec<u8>>> {
    match word {
        b"*" => Some(Bound::Unbounded),
        [b'[', key @ ..] => Some(Bound::Included(read_word(key)?)),
        [b'(', key @ ..] => Some(Bound::Excluded(read_word(key)?)),
        _ => None,
    }
}

/// Prints the rows of a range, whose bounds don't cross.
fn write_rows(out: &mut String, rows: &Rows, low: Bound<Vec<u8>>, high: Bound<Vec<u8>>) {
    let bounds = (low.as_ref().map(Vec::as_slice), high.as_ref().map(Vec::as_slice));
    let found: Vec<(&Rc<[u8]>, &Row)> = rows.range::<[u8], _>(bounds).collect();
    let _ = writeln!(out, "rows {}", found.len());
    for (key, row) in found {
        out.push_str("row ");
        write_word(out, key);
        out.push(' ');
        write_stamp(out, row);
    }
}

struct Live {
    store: Store,
    objects: Vec<Object>,
    writes: Vec<(usize, u64)>,
}

impl Live {
    fn add(&mut self, object: Object) -> usize {
        self.objects.push(object);
        self.objects.len() - 1
    }

    /// Does the command of one line; None where the line isn't a script line.
    fn apply(&mut self, out: &mut String, line: &[u8]) -> Option<()> {
        let mut fields = line.split(|byte| *byte == b' ');
        let moment: i64 = std::str::from_utf8(fields.next()?).ok()?.parse().ok()?;
        let name = fields.next()?;
        if name == b"open" {
            let handle = self.store.open();
            let object = self.add(Object::Handle(handle));
            let _ = writeln!(out, "handle {object}");
            return Some(());
        }
        if name == b"sweep" {
            self.store.sweep();
            out.push_str("swept\n");
            return Some(());
        }
        let first = fields.next()?;
        if name == b"follow" {
            let follower = self.store.follow();
            let at = follower.number;
            let object = self.add(Object::Follower(follower));
            let _ = writeln!(out, "follower {object} whole at {at}");
            return Some(());
        }
        let number: usize = std::str::from_utf8(first).ok()?.parse().ok()?;
        if name == b"await" {
            let text = match self.writes.get(number) {
                Some((handle, batch)) => match &self.objects[*handle] {
                    Object::Handle(handle) if *batch <= handle.durable => "durable\n",
                    _ => "pending\n",
                },
                None => "error unknown object\n",
            };
            out.push_str(text);
            return Some(());
        }
        let Some(object) = self.objects.get_mut(number) else {
            out.push_str("error unknown object\n");
            return Some(());
        };
        match (name, object) {
            (b"put", Object::Handle(handle)) => {
                let key = read_word(fields.next()?)?;
                let value = read_word(fields.next()?)?;
                match put(handle, moment, &key, &value) {
                    Some(batch) => {
                        let _ = writeln!(out, "write {} number {batch}", self.writes.len());
                        self.writes.push((number, batch));
                    }
                    None => out.push_str("error\n"),
                }
            }
            (b"flush", Object::Handle(handle)) => {
                let to_table = fields.next() == Some(b"memtable".as_slice());
                let done = if to_table { flush_to_table(&mut self.store, handle) } else { flush(&mut self.store, handle) };
                out.push_str(if done.is_some() { "flushed\n" } else { "error Closed error: detected newer DB client\n" });
            }
            (b"compact", Object::Handle(handle)) => {
                compact(&mut self.store, handle);
                out.push_str("compacted\n");
            }
            (b"get", Object::Handle(handle)) => write_row(out, find(handle, read_word(fields.next()?)?.as_slice())),
            (b"get", Object::Follower(follower)) => write_row(out, follower.rows.get(read_word(fields.next()?)?.as_slice())),
            (b"scan", Object::Handle(handle)) => {
                let low = read_bound(fields.next()?)?;
                let high = read_bound(fields.next()?)?;
                write_rows(out, &handle.rows, low, high);
            }
            (b"poll", Object::Follower(follower)) => {
                self.store.poll(follower);
                let _ = writeln!(out, "whole at {}", follower.number);
            }
            _ => out.push_str("error unknown object\n"),
        }
        Some(())
    }
}

fn main() {
    let mut script = Vec::new();
    std::io::stdin().read_to_end(&mut script).expect("a script");
    let mut live = Live { store: Store::default(), objects: Vec::new(), writes: Vec::new() };
    let mut out = String::new();
    for line in script.split(|byte| *byte == b'\n') {
        if !line.is_empty() && live.apply(&mut out, line).is_none() {
            std::process::exit(2);
        }
    }
    std::io::stdout().write_all(out.as_bytes()).expect("to be written");
}
