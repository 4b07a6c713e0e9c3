#!/usr/bin/env python3
"""User instructions, by callgrind, of finding the block of a name among blocks of one port: `BlockIndex::find`.

It copies the crates below plugin_api into a folder of its own, adds the program that stands here, proves and builds that, and takes
the difference of two runs of each case. It fails where a name of 4 labels among 64 blocks costs more than 400. Wants rt and
valgrind. The first run takes some minutes.
"""
import shutil
import sys
import tempfile

from counted import BELOW, WORD, built, cost

CRATES = ["dns_lists", "dns_addr", "dns_names", "dns_data", "name_table", "plugin_api"]
MOST = 400
FEW, MANY = 2_000, 22_000

PROGRAM = r'''// Finds the blocks of names among so many blocks, so many times.
#![tactic(auto)]

use dns_data::{Block, BlockKey, BlockKeys, Blocks, Copies, Directives, Name, NoMemory};
use plugin_api::BlockIndex;
use std::alloc::Global;
use std::{env, io};

''' + BELOW + r'''
fn zone(alloc: Global, number: u64) -> Result<Name, NoMemory> {
    let org = below(alloc, b"org", &Name::root(alloc))?;
    let example = below(alloc, b"example", &org)?;
    let text = format!(in alloc; "zone{number}")?;
    below(alloc, text.as_str().as_bytes(), &example)
}

fn block(alloc: Global, zone: Name) -> Result<Block, NoMemory> {
    let mut keys = BlockKeys::new(alloc);
    keys.push(BlockKey { zone, port: 53, line: 1 })?;
    Ok(Block { keys, directives: Directives::new(alloc) })
}

// The root's block first, where it is wanted, and as many others as make up the count.
fn blocks(alloc: Global, count: u64, root: bool) -> Result<Blocks, NoMemory> {
    let mut blocks = Blocks::new(alloc);
    for number in 0..count {
        if number == 0 && root {
            blocks.push(block(alloc, Name::root(alloc))?)?;
        } else {
            blocks.push(block(alloc, zone(alloc, number)?)?)?;
        }
    }
    Ok(blocks)
}

// A name of 4 labels: in a block's zone, or in that of none but the root.
fn asked(alloc: Global, case: &str, number: u64) -> Result<Name, NoMemory> {
    if case == "zone" {
        return below(alloc, b"www", &zone(alloc, number)?);
    }
    let text = format!(in alloc; "other{number}")?;
    let test = below(alloc, b"test", &Name::root(alloc))?;
    let other = below(alloc, text.as_str().as_bytes(), &test)?;
    below(alloc, b"www", &below(alloc, b"a", &other)?)
}

#[inline(never)]
fn find(index: &BlockIndex, name: &Name) -> u64 {
    match index.find(53, name) {
        Some(block) => u64::from(block).wrapping_add(1),
        None => 0,
    }
}

fn find_all(alloc: Global, blocks: &Blocks, case: &str, times: u64) -> Result<u64, NoMemory> {
    if 64 < blocks.len() {
        return Err(NoMemory);
    }
    let index = BlockIndex::new(alloc, blocks)?;
    let mut names: Vec<Name> = Vec::new(alloc);
    for number in 1..64_u64 {
        names.push(asked(alloc, case, number)?)?;
    }
    let mut seen = 0_u64;
    for time in 0..times {
        let Some(name) = names.get((time % 63) as usize) else {
            break;
        };
        seen = seen.wrapping_add(find(&index, name));
    }
    Ok(seen)
}

''' + WORD + r'''
fn run(alloc: Global, words: &[String]) -> Result<u64, NoMemory> {
    let case = word(words, 1);
    let count = word(words, 2).parse::<u64>().unwrap_or(64);
    let times = word(words, 3).parse::<u64>().unwrap_or(1);
    find_all(alloc, &blocks(alloc, count, case != "none")?, case, times)
}

fn main(rt: HostRuntime) -> io::Result<()> {
    let mut words = Vec::new(rt.alloc());
    for word in env::args(&rt)? {
        words.push(word)?;
    }
    match run(rt.alloc(), &words) {
        Ok(seen) => println!(rt; "{seen}"),
        Err(NoMemory) => println!(rt; "no memory"),
    }
}
'''


def main():
    folder = tempfile.mkdtemp(prefix="blocks-")
    try:
        program = built(folder, "block_bench", CRATES, ["plugin_api", "dns_data"], PROGRAM, ["zone", "64", "10"])
        worst = 0
        for case, of in [("zone", "in a zone of three labels"), ("root", "in the root's block alone"), ("none", "in none")]:
            (few, _), (many, said) = (cost(folder, program, case, 64, times) for times in (FEW, MANY))
            each = (many - few) // (MANY - FEW)
            worst = max(worst, each)
            print(f"a name of 4 labels among 64 blocks, {of}: {each} (blocks found: {said.strip()})", flush=True)
        if worst > MOST:
            sys.exit(f"more than {MOST}")
    finally:
        shutil.rmtree(folder, ignore_errors=True)


if __name__ == "__main__":
    main()
