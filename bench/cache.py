#!/usr/bin/env python3
"""What a cache costs: user instructions of a hit, of a put that evicts and of a lock's call, and of names that collide under a hash
with a known seed, by callgrind; allocations of a hit; bytes an entry takes; gets a second of threads at once.

It copies the crates below cache_shards into a folder of its own, adds the program that stands here, proves and builds that, and
takes the difference of two runs of each case, counting what the functions do that make one call. What is measured is printed, and
kept in bench/cache.csv. Exits 1 where a figure is above what is asked. Wants rt and valgrind. Most of its time is proving, which
takes many minutes.
"""
import csv
import os
import re
import shutil
import subprocess
import sys
import tempfile
import time

from counted import TOP, WORD, built, cost

CRATES = ["dns_lists", "dns_addr", "dns_names", "dns_data", "numbers", "pattern", "outside", "name_table", "zone_words", "plugin_api",
          "cache_rules", "last_used", "seeded_hash", "slot_lists", "ruled_lock", "cache_shards"]
NEEDS = ["cache_shards", "cache_rules", "seeded_hash", "ruled_lock", "atomic_table", "lru", "outside", "dns_data"]
KEPT = os.path.join(TOP, "bench", "cache.csv")
SEED = 987_654_321
GET, PUT, END = "cache_bench::get_one", "cache_bench::put_one", "std_alloc::arc::Arc::drop"

PROGRAM = r'''// Puts and gets at a cache: by one thread for counting instructions, and by several at once.
#![tactic(auto)]

ghost use Rattle.std.specs.Prelude.{◌≡◌, ◌<◌, ◌^◌, All, IfOk};
ghost use Rattle.ruled_lock.specs.Seats.{IsAt};
ghost use Rattle.cache_shards.specs.Seats.{IsSeatOf, views_of};
ghost use Rattle.cache_bench.specs.Shares.{AreShares};
ghost use Rattle.cache_bench.specs.Workers.{IsWorking};

use cache_rules::CachePlan;
use cache_shards::{Cache, CacheSeat, Judge, Looked};
use dns_data::{
    Addr, Answer, Copies, Directive, Line, Name, NoMemory, Query, Rdata, Record, Seq, Text, Texts, Transport,
};
use lru::LruCache;
use outside::{Class, Entry, Key};
use ruled_lock::{LockSeat, Locked, Object};
use seeded_hash::Seed;
use std::alloc::Global;
use std::num::NonZeroUsize;
use std::sync::{Arc, Wait};
use std::thread;
use std::thread::Threads;
use std::{env, io};

#[derive(Drop)]
struct Anything;

impl Judge for Anything {
    ghost just = { λ judge entry. Unit {0} };
}

// A number under a lock.
#[derive(Drop)]
struct Cell {
    number: u64,
}

impl Object for Cell {
    type Call = u64;

    type Reply = u64;

    ghost use Rattle.std.specs.Prelude.{◌≡◌};

    ghost step = { λ x c r y. (r ≡ x.number) × (y.number ≡ c) };

    ghost allowed = { λ x c. Unit {0} };

    fn apply(&mut self, call: u64) -> u64 {
        let before = self.number;
        self.number = call;
        before
    }

    ghost stays = { λ x c other r y a h. tt };
}

#[inline(never)]
fn call_one<R: Wait>(rt: &R, lock: &Locked<Cell>, seat: &mut LockSeat<Cell>, number: u64) -> u64
    requires { IsAt lock.now.table.shared.table_id seat.old }
    ensures { IsAt lock.now.table.shared.table_id seat.new }
{
    lock.call(rt, seat, number)
}

fn calls<R: Wait>(rt: &R, lock: &Locked<Cell>, seat: &mut LockSeat<Cell>, many: u64) -> u64
    requires { IsAt lock.now.table.shared.table_id seat.old }
    ensures { IsAt lock.now.table.shared.table_id seat.new }
{
    let mut sum: u64 = 0;
    for number in 0..many {
        sum = sum.wrapping_add(call_one(rt, lock, seat, number));
    }
    sum
}

fn line(alloc: Global, option: &str, word: &str) -> Result<Line, NoMemory> {
    let mut words: Texts = Seq::new(alloc);
    words.push(Text::from_str(alloc, option)?)?;
    words.push(Text::from_str(alloc, word)?)?;
    Ok(Line { words, number: 2 })
}

fn plan(alloc: Global, capacity: &str) -> Result<CachePlan, NoMemory> {
    let mut body = Seq::new(alloc);
    body.push(line(alloc, "success", capacity)?)?;
    body.push(line(alloc, "denial", "8")?)?;
    let directive = Directive {
        name: Text::from_str(alloc, "cache")?,
        args: Seq::new(alloc),
        body,
        line: 1,
    };
    let mut zones = Seq::new(alloc);
    zones.push(Name::root(alloc))?;
    CachePlan::read(alloc, &directive, &zones).map_err(|_| NoMemory)
}

// An answer of one A record, and the query that it was made for.
fn entry(alloc: Global, name: &Name) -> Result<Entry, NoMemory> {
    let mut records = Seq::with_capacity(alloc, 1)?;
    records.push(Record { owner: name.copy(alloc)?, class: 1, ttl: 60, rdata: Rdata::A(7) })?;
    let answer = Answer {
        rcode: 0,
        aa: false,
        ra: false,
        tc: false,
        answer: records,
        authority: Seq::new(alloc),
        additional: Seq::new(alloc),
    };
    let origin = Query {
        name: name.copy(alloc)?,
        kind: 1,
        dnssec: false,
        cd: false,
        rd: true,
        edns: false,
        client: Addr::V4(0),
        port: 4000,
        by: Transport::Udp,
        local: 53,
    };
    Ok(Entry { class: Class::Success, born: 0, life: 60, answer, origin, inner: Seq::new(alloc) })
}

// What is done, and how the seed of the hash begins.
#[derive(Drop)]
struct Case<'a> {
    name: &'a str,
    seed: u64,
}

// The product of two numbers, its halves joined by xor, as the hash of the kit's `LruCache::new` does.
fn folded(a: u64, b: u64) -> u64 {
    let product = u128::from(a) * u128::from(b);
    (product / (1 << 64)) as u64 ^ (product % (1 << 64)) as u64
}

// A label of 39 bytes. By the numbers of such names they fall together under that hash, whose seed is fixed: what follows the
// first 16 of their 40 bytes is the state that they lead to, so that the next one is 0, and the rest is the same for all.
fn long_label(number: u64, falls: bool) -> [u8; 39] {
    let mut label = [b'a'; 39];
    let mut rest = number;
    for at in 0..8_usize {
        label[at] = b'a' + (rest % 26) as u8;
        rest /= 26;
    }
    if !falls {
        return label;
    }
    let mut first = [0_u8; 8];
    first[0] = 39;
    first[1..8].copy_from_slice(&label[0..7]);
    let mut second = [0_u8; 8];
    second.copy_from_slice(&label[7..15]);
    let begun = 0x243f_6a88_85a3_08d3_u64.wrapping_add(40);
    let state = folded(
        u64::from_le_bytes(first) ^ begun,
        u64::from_le_bytes(second) ^ 0x9e37_79b9_7f4a_7c15,
    );
    let third = state.to_le_bytes();
    label[15..23].copy_from_slice(&third);
    label
}

// A name by its number; none where one that falls would have a capital letter.
fn name(alloc: Global, case: &Case<'_>, number: u64) -> Result<Option<Name>, NoMemory> {
    let root = Name::root(alloc);
    if case.name == "falling" || case.name == "long" || case.name == "list" || case.name == "names" {
        let label = long_label(number, case.name != "long");
        if label.iter().any(|byte| *byte != byte.to_ascii_lowercase()) {
            return Ok(None);
        }
        return Ok(Some(root.below(alloc, label.as_slice())?));
    }
    let org = root.below(alloc, b"org")?;
    let example = if case.name == "wide" {
        org.below(alloc, b"example-of-a-wider-label")?
    } else {
        org.below(alloc, b"example")?
    };
    let text = format!(in alloc; "host{number}")?;
    let label = text.as_str().as_bytes();
    if label.len() == 0 || 63 < label.len() {
        return Ok(None);
    }
    Ok(Some(example.below(alloc, label)?))
}

fn keys(alloc: Global, case: &Case<'_>, from: u64, to: u64) -> Result<Vec<Key>, NoMemory> {
    let mut keys = Vec::new(alloc);
    for number in from..to {
        if let Some(name) = name(alloc, case, number)? {
            keys.push(Key { name, kind: 1, dnssec: false, cd: false })?;
        }
    }
    Ok(keys)
}

#[inline(never)]
fn put_one<R: Wait>(
    rt: &R,
    cache: &Cache<Anything>,
    seat: &mut CacheSeat<Anything>,
    key: Key,
    entry: Arc<Entry>,
)
    requires { IsSeatOf cache.now seat.old.seats.items }
    ensures { IsSeatOf cache.now seat.new.seats.items }
{
    cache.put(rt, seat, key, entry);
}

#[inline(never)]
fn get_one<R: Wait>(
    rt: &R,
    alloc: Global,
    cache: &Cache<Anything>,
    seat: &mut CacheSeat<Anything>,
    key: &Key,
) -> u64
    requires { IsSeatOf cache.now seat.old.seats.items }
    ensures { IsSeatOf cache.now seat.new.seats.items }
{
    match cache.get(alloc, rt, seat, key, 1_000) {
        Looked::Hit(entry) => entry.born.wrapping_add(1),
        Looked::Miss | Looked::NoMemory => 0,
    }
}

// Each put has an entry of one record.
fn fill<R: Wait>(
    rt: &R,
    alloc: Global,
    cache: &Cache<Anything>,
    seat: &mut CacheSeat<Anything>,
    case: &Case<'_>,
    many: u64,
) -> Result<(), NoMemory>
    requires { IsSeatOf cache.now seat.old.seats.items }
    ensures { IsSeatOf cache.now seat.new.seats.items }
{
    for number in 0..many {
        if let Some(name) = name(alloc, case, number)? {
            let entry = Arc::new(alloc, entry(alloc, &name)?)?;
            put_one(rt, cache, seat, Key { name, kind: 1, dnssec: false, cd: false }, entry);
        }
    }
    Ok(())
}

fn hits<R: Wait>(
    rt: &R,
    alloc: Global,
    cache: &Cache<Anything>,
    seat: &mut CacheSeat<Anything>,
    keys: &[Key],
    times: u64,
) -> u64
    requires { IsSeatOf cache.now seat.old.seats.items }
    ensures { IsSeatOf cache.now seat.new.seats.items }
{
    let mut found: u64 = 0;
    for time in 0..times {
        let Some(at) = time.checked_rem(keys.len() as u64) else {
            return found;
        };
        if let Some(key) = keys.get(at as usize) {
            found = found.wrapping_add(get_one(rt, alloc, cache, seat, key));
        }
    }
    found
}

// Names that collide under the hash of `LruCache::new`, in such a list.
fn list(alloc: Global, case: &Case<'_>, many: u64) -> Result<u64, NoMemory> {
    let Some(room) = NonZeroUsize::new(10_000) else {
        return Err(NoMemory);
    };
    let mut list: LruCache<Key, u64> = LruCache::new(alloc, room)?;
    let mut put: u64 = 0;
    for key in keys(alloc, case, 0, many)? {
        if list.put(key, put).is_ok() {
            put = put.wrapping_add(1);
        }
    }
    Ok(put)
}

// A thread with its seat.
#[derive(Drop)]
struct Worker {
    seat: CacheSeat<Anything>,
    found: u64,
}

fn worker_of(_alloc: Global, seat: CacheSeat<Anything>, _number: u32) -> Worker
    ensures { result.seat ≡ seat }
{
    Worker { seat, found: 0 }
}

fn enlist(
    alloc: Global,
    cache: &Cache<Anything>,
    seat: &mut CacheSeat<Anything>,
) -> Result<Vec<Worker>, NoMemory>
    requires own { IsSeatOf cache.now seat.old.seats.items }
    requires share { AreShares 5 5 (views_of seat.old.seats.items) }
    ensures own { IsSeatOf cache.now seat.new.seats.items }
    ensures workers { IfOk result (λ workers. All (IsWorking cache.now) workers.items) }
{
    let mut workers = Vec::new(alloc);
    for number in 0..4_u32 {
        let other = cache.split(alloc, seat)?;
        workers.push(worker_of(alloc, other, number))?;
    }
    Ok(workers)
}

fn work<R: Wait>(
    rt: &R,
    alloc: Global,
    cache: &Cache<Anything>,
    worker: &mut Worker,
    keys: &[Key],
    times: u64,
)
    requires { IsSeatOf cache.now worker.old.seat.seats.items }
    ensures { IsSeatOf cache.now worker.new.seat.seats.items }
{
    worker.found = hits(rt, alloc, cache, &mut worker.seat, keys, times);
}

fn crowd<R: Threads + Wait + Sync>(
    rt: &R,
    alloc: Global,
    cache: &Cache<Anything>,
    workers: &mut Vec<Worker>,
    keys: &[Key],
    threads: usize,
    times: u64,
)
    requires working { All (IsWorking cache.now) workers.old.items }
    requires threads { 0 < threads }
{
    let run = |_at: usize, worker: &mut Worker|
        requires { IsWorking cache.now worker.now }
        ensures { IsSeatOf cache.entry.now worker.exit.now.seat.seats.items }
    {
        work(rt, alloc, cache, worker, keys, times);
    };
    thread::for_each_mut(rt, workers.as_mut_slice(), threads, &run);
}

// Four workers in so many threads at once, of which each gets so often.
fn threads<R: Threads + Wait + Sync>(
    rt: &R,
    alloc: Global,
    keys: &[Key],
    threads: u64,
    times: u64,
) -> Result<u64, NoMemory> {
    if threads == 0 {
        return Ok(0);
    }
    let case = Case { name: "threads", seed: 11 };
    let plan = plan(alloc, "10000")?;
    let (cache, mut seat) = Cache::new(alloc, &plan, Anything, 5, Seed::new(case.seed, 7))?;
    let mut workers = enlist(alloc, &cache, &mut seat)?;
    fill(rt, alloc, &cache, &mut seat, &case, 1_000)?;
    crowd(rt, alloc, &cache, &mut workers, keys, threads as usize, times);
    let mut found: u64 = 0;
    for worker in workers.iter() {
        found = found.wrapping_add(worker.found);
    }
    Ok(found)
}

// Fills a cache with so many entries, and gets each of the last 4,000 so often.
fn alone<R: Wait>(
    rt: &R,
    alloc: Global,
    case: &Case<'_>,
    capacity: &str,
    many: u64,
    times: u64,
) -> Result<u64, NoMemory> {
    let plan = plan(alloc, capacity)?;
    let seed = Seed::new(case.seed, case.seed);
    let (cache, mut seat) = Cache::new(alloc, &plan, Anything, 1, seed)?;
    fill(rt, alloc, &cache, &mut seat, case, many)?;
    let keys = keys(alloc, case, many.saturating_sub(4_000), many)?;
    Ok(hits(rt, alloc, &cache, &mut seat, keys.as_slice(), times))
}

''' + WORD + r'''
fn run<R: Threads + Wait + Sync>(rt: &R, alloc: Global, words: &[String]) -> Result<u64, NoMemory> {
    let many = word(words, 2).parse::<u64>().unwrap_or(1);
    let times = word(words, 3).parse::<u64>().unwrap_or(1);
    let seed = word(words, 4).parse::<u64>().unwrap_or(0);
    let case = Case { name: word(words, 1), seed };
    match case.name {
        "call" => {
            let Ok((lock, mut seat)) = Locked::new(alloc, Cell { number: 0 }, 1) else {
                return Err(NoMemory);
            };
            Ok(calls(rt, &lock, &mut seat, many))
        }
        "names" => Ok(keys(alloc, &case, 0, many)?.len() as u64),
        "list" => list(alloc, &case, many),
        "one" => threads(rt, alloc, keys(alloc, &case, 0, 1)?.as_slice(), many, times),
        "many" => threads(rt, alloc, keys(alloc, &case, 0, 1_000)?.as_slice(), many, times),
        "memory" => alone(rt, alloc, &case, word(words, 2), many, times),
        _ => alone(rt, alloc, &case, "10000", many, times),
    }
}

fn main(rt: HostRuntime) -> io::Result<()> {
    let mut words = Vec::new(rt.alloc());
    for word in env::args(&rt)? {
        words.push(word)?;
    }
    match run(&rt, rt.alloc(), &words) {
        Ok(found) => println!(rt; "{found}"),
        Err(NoMemory) => println!(rt; "no memory"),
    }
}
'''

SEATED = """use Rattle.cache_shards.specs.Seats.{{IsSeatOf}}
use Rattle.cache_bench.proofs.{function}.Given as goal

abbrev pub {name} : goal.{name}
{name} g l = IsSeatOf l.cache l.seat.seats.items
"""
AT = """use Rattle.ruled_lock.specs.Seats.{IsAt}
use Rattle.cache_bench.proofs.calls.Given as goal

abbrev pub invariant-loop-number : goal.invariant-loop-number
invariant-loop-number g l = IsAt l.lock.table.shared.table_id l.seat
"""
SOAK = os.path.join(TOP, "crates", "cache_soak")
CROSSINGS = """-- Workers may cross threads.
use denote.Param.Send.{IsSend, sendable}
use denote.Param.SendFields.{declared_send}
use Rattle.cache_shards.proofs.Sharings.{cache_seat_send}
use Rattle.cache_bench.specs.contracts.Anything as Anything
use Rattle.cache_bench.specs.contracts.Worker as Worker

pub worker_send : IsSend Worker.the_row
worker_send = declared_send Worker.the_type (cache_seat_send Anything.the_row, (search sendable, tt))
"""
SHARED = """use denote.Param.Send.{sendable}
use Rattle.std.proofs.Crossing.{crosses, sync}
use Rattle.outside.proofs.entry.Key.TheSendSync as key
use Rattle.cache_shards.proofs.Sharings.{cache_sync}
use Rattle.cache_bench.proofs.Crossings.{worker_send}
use Rattle.cache_bench.proofs.crowd.Goals as goal

pub for_each_mut-requires-send-T : goal.for_each_mut-requires-send-T
for_each_mut-requires-send-T g c κs within = search (sendable, crosses, worker_send) depth 30

pub for_each_mut-requires-sync-F : goal.for_each_mut-requires-sync-F
for_each_mut-requires-sync-F g c κs within = search (sendable, crosses, sync, key.the_sync, cache_sync) depth 40 fits 20000
"""


def soaked(*path):
    """A file of the soak of a cache, whose workers get their seats as these do, under the names that these have."""
    with open(os.path.join(SOAK, *path)) as file:
        text = file.read()
    return re.sub(r"cache_soak\.(specs\.declared|proofs)\.(making|crowd)\b", r"cache_soak.\1", text).replace("cache_soak", "cache_bench")


def files():
    """What the program's proof needs: that its loops keep the seat the cache's own, that a seat has a part left for each split, and
    that workers may cross threads."""
    return {
        "specs/Lib.antt": "pub mod Shares\npub mod Workers\n",
        "specs/Shares.antt": soaked("specs", "Shares.antt"),
        "specs/Workers.antt": soaked("specs", "Workers.antt"),
        "proofs/Lib.antt": "pub mod Shares\npub mod Crossings\n",
        "proofs/Shares.antt": soaked("proofs", "Shares.antt"),
        "proofs/Crossings.antt": CROSSINGS,
        "proofs/calls/Invariants.antt": AT,
        "proofs/fill/Invariants.antt": SEATED.format(function="fill", name="invariant-loop-number"),
        "proofs/hits/Invariants.antt": SEATED.format(function="hits", name="invariant-loop-time"),
        "proofs/enlist/Invariants.antt": soaked("proofs", "crowd", "enlist", "Invariants.antt"),
        "proofs/enlist/Answers.antt": soaked("proofs", "crowd", "enlist", "Answers.antt"),
        "proofs/crowd/Answers.antt": SHARED,
        "proofs/threads/Answers.antt": soaked("proofs", "crowd", "run_at_once", "Answers.antt").replace("run_at_once", "threads"),
    }


def each(folder, program, within, few, many, *words):
    """Instructions of these functions for one more, by runs of so few and so many of what the words say, and what the second printed."""
    (less, _), (more, said) = (cost(folder, program, *words[:1], *(word(n) for word in words[1:]), within=within) for n in (few, many))
    return (more - less) // (many - few), said.strip()


def allocations(program, times):
    """How many allocations a run of so many hits makes, of names of 38 bytes."""
    run = subprocess.run(["valgrind", program, "wide", "10000", str(times), str(SEED)], check=True, capture_output=True, text=True)
    return int(re.search(r"total heap usage: ([\d,]+) allocs", run.stderr).group(1).replace(",", ""))


def memory(program, entries):
    """The greatest resident size in bytes of a run that fills a cache of so many entries."""
    with subprocess.Popen([program, "memory", str(entries), "0", str(SEED)], stdout=subprocess.DEVNULL) as run:
        _, status, used = os.wait4(run.pid, 0)
        run.returncode = os.waitstatus_to_exitcode(status)
    return used.ru_maxrss * 1024


def gets_a_second(program, case, threads, times):
    """Of four workers in so many threads, the best of three runs."""
    spent = []
    for _ in range(3):
        began = time.monotonic()
        subprocess.run([program, case, str(threads), str(times)], check=True, stdout=subprocess.DEVNULL)
        spent.append(time.monotonic() - began)
    return int(4 * times / min(spent))


class Kept:
    """What is measured, printed as it comes and kept."""

    def __init__(self):
        now = time.strftime("%Y-%m-%d %H:%M UTC", time.gmtime())
        self.rows = [("date", now, "", ""), ("load average", round(os.getloadavg()[0], 2), "", "")]
        self.is_met = True

    def keep(self, case, value, unit, most=None):
        asked = "" if most is None else most
        self.rows.append((case, value, unit, asked))
        print(f"{case}: {value} {unit}" + ("" if most is None else f", at most {most}"), flush=True)
        if most is not None and most < value:
            self.is_met = False

    def write(self):
        with open(KEPT, "w", newline="") as file:
            writer = csv.writer(file, lineterminator="\n")
            writer.writerow(("case", "value", "unit", "at most"))
            writer.writerows(self.rows)


def count(folder, program, kept):
    seed = lambda n: SEED
    of = lambda n: n
    call, _ = each(folder, program, ["cache_bench::call_one"], 1_000, 101_000, "call", of)
    kept.keep("a call of a lock without a rival", call, "instructions", 55)
    hit, found = each(folder, program, [GET], 10_000, 20_000, "hit", lambda n: 10_000, of, seed)
    if found != "20000":
        sys.exit(f"{found} of 20,000 gets were hits")
    kept.keep("a hit in a cache filled with 10,000 entries, its entry let go", hit, "instructions", 620)
    wide, _ = each(folder, program, [GET], 10_000, 20_000, "wide", lambda n: 10_000, of, seed)
    kept.keep("the same of names of 38 bytes", wide, "instructions")
    kept.keep("allocations of 10,000 such hits", allocations(program, 20_000) - allocations(program, 10_000), "allocations", 0)
    put, _ = each(folder, program, [PUT], 20_000, 40_000, "put", of, lambda n: 0, seed)
    kept.keep("a put that evicts, the evicted entry let go", put, "instructions", 900)
    ended, _ = each(folder, program, [END], 20_000, 40_000, "put", of, lambda n: 0, seed)
    kept.keep("of it, ending the evicted entry", ended, "instructions")


def collide(folder, program, kept):
    """Names that collide under the hash of `LruCache::new`, beside as many others as long, each put, and then some got: in a
    cache. And put in such a list, to see that they collide there."""
    many = 24_000
    names = int(cost(folder, program, "names", many)[1])
    spent = {}
    for case, numbers in (("long", names), ("falling", many)):
        used, found = cost(folder, program, case, numbers, 4_000, SEED, within=[GET, PUT])
        if found.strip() != "4000":
            sys.exit(f"{found} of 4,000 gets were hits")
        spent[case] = used // (names + 4_000)
    kept.keep(f"a put or a hit, of {names} names of 41 bytes", spent["long"], "instructions")
    kept.keep("the same of names that collide under a fixed seed", spent["falling"], "instructions", spent["long"] * 11 // 10)
    made, names = cost(folder, program, "names", 4_800)
    used, _ = cost(folder, program, "list", 4_800)
    names = int(names)
    kept.keep(f"a put in a list with that seed, of {names} such names", (used - made) // names, "instructions")


def main():
    folder = tempfile.mkdtemp(prefix="cache-")
    kept = Kept()
    try:
        program = built(folder, "cache_bench", CRATES, NEEDS, PROGRAM, ["hit", "10", "10"], files())
        count(folder, program, kept)
        collide(folder, program, kept)
        taken = (memory(program, 200_000) - memory(program, 100_000)) // 100_000
        kept.keep("an entry of one A record with its key, beside its name", taken - len("*host150000*example*org*"), "bytes", 500)
        for case, keys in (("one", "one key"), ("many", "1,000 keys")):
            for threads in (1, 2, 4):
                kept.keep(f"{keys}, threads: {threads}", gets_a_second(program, case, threads, 500_000), "gets a second")
        kept.write()
    finally:
        shutil.rmtree(folder, ignore_errors=True)
    if not kept.is_met:
        sys.exit("more than that")


if __name__ == "__main__":
    main()
