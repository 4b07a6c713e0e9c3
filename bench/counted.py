"""What the benches share that count the instructions of a program of their own over a few crates."""
import os
import shutil
import subprocess

from callgrind import collected, under

TOP = os.path.dirname(os.path.dirname(os.path.abspath(__file__)))

# Of these programs: a name below another one where it fits, and a word of the command line.
BELOW = r'''fn below(alloc: Global, label: &[u8], origin: &Name) -> Result<Name, NoMemory> {
    if label.len() == 0 || 63 < label.len() || 150 < origin.wire_len() {
        return origin.copy(alloc);
    }
    origin.below(alloc, label)
}
'''
WORD = r'''fn word(words: &[String], index: usize) -> &str {
    match words.get(index) {
        Some(word) => word.as_str(),
        None => "",
    }
}
'''


def built(folder, name, crates, needs, source, words, files=None):
    """The program NAME of a source that needs some of these crates, each behind those below it, proved and built in a repository of
    its own, and run once by these words. `files` has the text of each further file of it, by its path."""
    crate = os.path.join(folder, "crates", name)
    os.makedirs(os.path.join(crate, "src"))
    for below in crates:
        shutil.copytree(os.path.join(TOP, "crates", below), os.path.join(folder, "crates", below), ignore=shutil.ignore_patterns("out"))
    with open(os.path.join(TOP, "crates.txt")) as file:
        lines = [line for line in file if line.split(":")[0] in crates]
    with open(os.path.join(folder, "crates.txt"), "w") as file:
        file.writelines([*lines, f"{name}: {' '.join(needs)}\n"])
    shutil.copy(os.path.join(TOP, "HANDLES"), folder)
    with open(os.path.join(crate, "src", "main.rt"), "w") as file:
        file.write(source)
    for path, text in (files or {}).items():
        place = os.path.join(crate, path)
        os.makedirs(os.path.dirname(place), exist_ok=True)
        with open(place, "w") as file:
            file.write(text)
    subprocess.run(["rt", "fmt"], cwd=crate, check=True, stdout=subprocess.DEVNULL)
    subprocess.run(["rt", "run", "--", *words], cwd=crate, check=True, stdout=subprocess.DEVNULL)
    return os.path.join(crate, "out", name)


def cost(folder, program, *words, within=()):
    """User instructions of one run by these words, and what it printed. Of functions alone, where some are named."""
    out = os.path.join(folder, "callgrind.out")
    options = [f"--toggle-collect={name}*" for name in within]
    done = subprocess.run([*under(out, *options), program, *map(str, words)], check=True, capture_output=True, text=True)
    return collected(done.stderr), done.stdout
