#!/usr/bin/env python3
"""User instructions of a zone's tree, by callgrind: of one answer at 1,000 and at 72,000 names, of making the tree of 36,000 and of
72,000 records, and of one answer with many records.

It copies the crates below zone_tree into a folder of its own, adds the program that stands here, proves and builds that, and
takes the difference of two runs of each case. It fails where an answer of 4,000 records costs more than 4.6 times one of 1,000.
Wants rt and valgrind. The first run takes some minutes; `--long` measures long answers alone.
"""
import shutil
import sys
import tempfile

from counted import BELOW, WORD, built, cost

CRATES = ["dns_lists", "dns_addr", "dns_names", "dns_data", "dns_wire", "dns_write", "name_table", "zone_lookup",
          "zone_tree"]
CASES = ["hit", "wildcard", "nxdomain", "referral"]
FEW, MANY = 2_000, 22_000
# Long answers: so many records of a type with a host each, or with none, and of how many answers the difference is taken.
LONG = {
    "mx": "MX at a name",
    "srv": "SRV at a name",
    "apex": "NS at the origin, behind an A record",
    "cut": "NS at a cut",
    "a": "A at a name",
}
RECORDS = (250, 1_000, 4_000)
ONCE, AGAIN = 4, 24
MOST = 4.6

PROGRAM = r'''// Answers questions for a zone of so many names, so many times.
#![tactic(auto)]

use dns_data::{Copies, Name, NoMemory, Rdata, Record, Records, Seq, Slot, Soa, Zone, class, kind};
use std::alloc::Global;
use std::{env, io};
use zone_lookup::answer;
use zone_tree::TreeZone;

''' + BELOW + r'''
fn at(alloc: Global, label: &str, origin: &Name) -> Result<Name, NoMemory> {
    below(alloc, label.as_bytes(), origin)
}

fn host(alloc: Global, front: &str, number: u64, origin: &Name) -> Result<Name, NoMemory> {
    let text = format!(in alloc; "{front}{number}")?;
    below(alloc, text.as_str().as_bytes(), origin)
}

fn origin_of(alloc: Global) -> Result<Name, NoMemory> {
    let org = below(alloc, b"org", &Name::root(alloc))?;
    below(alloc, b"example", &org)
}

fn soa_of(alloc: Global, origin: &Name) -> Result<Soa, NoMemory> {
    let mname = at(alloc, "ns", origin)?;
    let rname = at(alloc, "admin", origin)?;
    Ok(Soa { mname, rname, serial: 1, refresh: 7200, retry: 3600, expire: 1209600, minimum: 60 })
}

fn add_address(alloc: Global, records: &mut Records, owner: Name) -> Result<(), NoMemory> {
    let _ = alloc;
    records.push(Record::new(owner, class::IN, 300, Rdata::A(4)))
}

fn add_server(alloc: Global, records: &mut Records, owner: &Name) -> Result<(), NoMemory> {
    let host = at(alloc, "ns", owner)?;
    records.push(Record::new(owner.copy(alloc)?, class::IN, 300, Rdata::Ns(host)))
}

fn add_soa(alloc: Global, records: &mut Records, origin: &Name) -> Result<(), NoMemory> {
    let soa = soa_of(alloc, origin)?;
    records.push(Record::new(origin.copy(alloc)?, class::IN, 300, Rdata::Soa(soa)))
}

fn add_heads(alloc: Global, records: &mut Records, origin: &Name) -> Result<(), NoMemory> {
    add_soa(alloc, records, origin)?;
    add_server(alloc, records, origin)?;
    add_address(alloc, records, at(alloc, "ns", origin)?)?;
    add_address(alloc, records, at(alloc, "*", &at(alloc, "w", origin)?)?)?;
    let sub = at(alloc, "sub", origin)?;
    add_server(alloc, records, &sub)?;
    add_address(alloc, records, at(alloc, "ns", &sub)?)
}

fn zone_of(alloc: Global, count: u64) -> Result<Zone, NoMemory> {
    let origin = origin_of(alloc)?;
    let mut records: Records = Seq::new(alloc);
    add_heads(alloc, &mut records, &origin)?;
    for number in 0..count {
        add_address(alloc, &mut records, host(alloc, "host", number, &origin)?)?;
    }
    Ok(Zone { origin, records })
}

// A zone in which so many records of one type stand at one name, each with a host of its own that has an address.
fn long_zone(alloc: Global, case: &str, count: u64) -> Result<Zone, NoMemory> {
    let origin = origin_of(alloc)?;
    let mut records: Records = Seq::new(alloc);
    add_heads(alloc, &mut records, &origin)?;
    for number in 0..count {
        let named = host(alloc, "host", number, &origin)?;
        let owner = long_owner(alloc, case, &origin)?;
        let host = named.copy(alloc)?;
        records.push(long_record(case, number, owner, host))?;
        add_address(alloc, &mut records, named)?;
    }
    Ok(Zone { origin, records })
}

fn long_owner(alloc: Global, case: &str, origin: &Name) -> Result<Name, NoMemory> {
    if case == "apex" {
        return origin.copy(alloc);
    }
    if case == "cut" {
        return at(alloc, "sub", origin);
    }
    at(alloc, "set", origin)
}

fn long_record(case: &str, number: u64, owner: Name, host: Name) -> Record {
    if case == "mx" {
        return Record::new(owner, class::IN, 300, Rdata::Mx(10, host));
    }
    if case == "srv" {
        return Record::new(owner, class::IN, 300, Rdata::Srv(1, 1, 5060, host));
    }
    if case == "a" {
        return Record::new(owner, class::IN, 300, Rdata::A((number % 65_536) as u32));
    }
    Record::new(owner, class::IN, 300, Rdata::Ns(host))
}

fn is_long(case: &str) -> bool {
    case == "mx" || case == "srv" || case == "apex" || case == "cut" || case == "a"
}

fn kind_of(case: &str) -> u16 {
    if case == "mx" {
        return kind::MX;
    }
    if case == "srv" {
        return kind::SRV;
    }
    kind::A
}

fn name_of(alloc: Global, case: &str, number: u64, origin: &Name) -> Result<Name, NoMemory> {
    if case == "apex" {
        return host(alloc, "host", 0, origin);
    }
    if is_long(case) && case != "cut" {
        return at(alloc, "set", origin);
    }
    if case == "hit" {
        return host(alloc, "host", number, origin);
    }
    if case == "wildcard" {
        return host(alloc, "c", number, &at(alloc, "w", origin)?);
    }
    if case == "nxdomain" {
        return host(alloc, "nope", number, origin);
    }
    host(alloc, "x", number, &at(alloc, "sub", origin)?)
}

#[inline(never)]
fn ask(alloc: Global, zone: &TreeZone, name: &Name, kind: u16, slot: &mut Slot) -> Result<u64, NoMemory> {
    slot.clear();
    answer(alloc, zone, name, kind, slot)?;
    Ok(u64::from(slot.rcode).wrapping_add(slot.additional.len() as u64))
}

fn ask_all(alloc: Global, zone: Zone, case: &str, count: u64, times: u64) -> Result<u64, NoMemory> {
    let tree = TreeZone::new(alloc, zone)?;
    let origin = origin_of(alloc)?;
    let mut names: Vec<Name> = Vec::new(alloc);
    for i in 0..1024_u64 {
        let number = i.wrapping_mul(7919).checked_rem(count).unwrap_or(0);
        let name = name_of(alloc, case, number, &origin)?;
        names.push(name)?;
    }
    let mut seen = 0_u64;
    let mut slot = Slot::new(alloc);
    for t in 0..times {
        let Some(name) = names.get((t % 1024) as usize) else {
            break;
        };
        seen = seen.wrapping_add(ask(alloc, &tree, name, kind_of(case), &mut slot)?);
    }
    Ok(seen)
}

fn run(alloc: Global, count: u64, case: &str, times: u64) -> Result<u64, NoMemory> {
    if is_long(case) {
        return ask_all(alloc, long_zone(alloc, case, count)?, case, count, times);
    }
    let zone = zone_of(alloc, count)?;
    if case == "list" {
        return Ok(zone.records.len() as u64);
    }
    ask_all(alloc, zone, case, count, times)
}

''' + WORD + r'''
fn main(rt: HostRuntime) -> io::Result<()> {
    let mut words = Vec::new(rt.alloc());
    for word in env::args(&rt)? {
        words.push(word)?;
    }
    let count = word(&words, 1).parse::<u64>().unwrap_or(1000);
    let times = word(&words, 3).parse::<u64>().unwrap_or(1);
    match run(rt.alloc(), count, word(&words, 2), times) {
        Ok(seen) => println!(rt; "{seen}"),
        Err(NoMemory) => println!(rt; "no memory"),
    }
}
'''


def long_answers(folder, program):
    """Prints what an answer of many records costs. Returns whether each grew with its records and no faster."""
    well = True
    for case, text in LONG.items():
        each = [(cost(folder, program, records, case, AGAIN)[0] - cost(folder, program, records, case, ONCE)[0]) // (AGAIN - ONCE)
                for records in RECORDS]
        times = each[2] / each[1]
        print(f"{text}: {each[0]:,} for 250, {each[1]:,} for 1,000, {each[2]:,} for 4,000: {times:.2f} times", flush=True)
        well = well and times <= MOST
    return well


def main():
    folder = tempfile.mkdtemp(prefix="zones-")
    try:
        needs = ["zone_tree", "zone_lookup", "dns_data"]
        program = built(folder, "zone_bench", CRATES, needs, PROGRAM, ["10", "hit", "10"])
        well = long_answers(folder, program)
        if "--long" in sys.argv[1:]:
            return 0 if well else 1
        for case in CASES:
            each = [(cost(folder, program, names, case, MANY)[0] - cost(folder, program, names, case, FEW)[0]) // (MANY - FEW)
                    for names in (1_000, 72_000)]
            print(f"{case}: {each[0]} at 1,000 names, {each[1]} at 72,000", flush=True)
        made = [cost(folder, program, names, "none", 0)[0] - cost(folder, program, names, "list", 0)[0] for names in (36_000, 72_000)]
        print(f"making: {made[0]} for 36,000 records, {made[1]} for 72,000: {made[1] / made[0]:.3f} times")
        return 0 if well else 1
    finally:
        shutil.rmtree(folder, ignore_errors=True)


if __name__ == "__main__":
    sys.exit(main())
