"""Which must-fail edits the everyday gate tries: tools/edit-sums and .ci/run, on a copy, with an `rt` that only says what it was given."""
import importlib.machinery
import importlib.util
import os
import shutil
import subprocess
import sys
import tempfile

sys.path.insert(0, os.path.join(os.path.dirname(os.path.abspath(__file__)), "lib"))
from program import TOP, Rows  # noqa: E402

# Says its version, and as `rt ci` that each edit which it finds was refused, but for those that $MISSED names.
FAKE_RT = """#!/bin/sh
if [ "$1" = version ]; then
    echo "${KIT:-kit}"
    exit 0
fi
for edit in crates/*/must-fail/*.edit; do
    crate=${edit#crates/}
    crate=${crate%%/*}
    case " ${MISSED:-} " in
    *" $crate "*) echo "rt: must-fail $crate/${edit##*/}: NOT REFUSED: the crate is still proved with this edit" ;;
    *) echo "rt: must-fail $crate/${edit##*/}: refused, as it must be: src/lib.rt:1:1: error" ;;
    esac
done
echo "7 passed, 0 failed"
"""


class Copy:
    """A copy of what the gate reads, with an `rt` of the test's own."""

    def __init__(self, room):
        self.top = os.path.join(room, "copy")
        os.mkdir(self.top)
        for name in ("crates.txt", "HANDLES"):
            shutil.copy(os.path.join(TOP, name), self.top)
        for name in (".ci", "tools", "crates"):
            shutil.copytree(os.path.join(TOP, name), os.path.join(self.top, name), ignore=shutil.ignore_patterns("out", "__pycache__"))
        os.mkdir(os.path.join(self.top, "tests"))
        os.mkdir(os.path.join(room, "bin"))
        with open(os.path.join(room, "bin", "rt"), "w") as file:
            file.write(FAKE_RT)
        os.chmod(file.name, 0o755)
        self.env = {**os.environ, "PATH": os.path.join(room, "bin") + ":" + os.environ["PATH"]}
        self.refused = os.path.join(self.top, ".ci", "edits-refused")

    def ran(self, *words, **env):
        return subprocess.run(words, cwd=self.top, env={**self.env, **env}, capture_output=True, text=True, timeout=120).stdout

    def due(self, **env):
        return self.ran("tools/edit-sums", "due", **env).split()

    def change(self, path, old, new):
        """Replaces a text that stands in a file, once; gives what puts it back."""
        path = os.path.join(self.top, "crates", path)
        with open(path) as file:
            text = file.read()
        if old not in text:
            raise ValueError(f"{path} lacks {old!r}")
        with open(path, "w") as file:
            file.write(text.replace(old, new, 1))
        return lambda: shutil.copy(os.path.join(TOP, os.path.relpath(path, self.top)), path)


def module_of(path):
    loader = importlib.machinery.SourceFileLoader("edit_sums", path)
    found = importlib.util.module_from_spec(importlib.util.spec_from_loader("edit_sums", loader))
    sys.dont_write_bytecode = True
    loader.exec_module(found)
    return found


def above(module, name):
    """The crates with edits that stand on a crate, and itself."""
    found = {name}
    for it, below in module.crates().items():
        if found & set(below):
            found.add(it)
    return [it for it in module.crates() if it in found and module.edits_of(it)]


def changes(rows, copy, module):
    """One change after another, each put back: which crates' edits are due."""
    every = [name for name in module.crates() if module.edits_of(name)]
    rows.equal("nothing is due where nothing has changed", copy.due(), [])
    rows.equal("all are due under another toolchain", copy.due(KIT="another"), every)
    for what, path, old, new, want in [
        ("a body", "dns_names/src/lib.rt", "\nmod ", "\nfn idle() {}\n\nmod ", ["dns_names"]),
        ("a proof", "corefile_words/proofs/Lib.antt", "mod", "-- a word\nmod", ["corefile_words"]),
        ("an edit", "plugin_api/must-fail/" + module.edits_of("plugin_api")[0], "new:", "# other\nnew:", ["plugin_api"]),
        ("a comment on a public function", "dns_lists/src/buffer.rt", "/// No bytes, and no room.", "/// None.", ["dns_lists"]),
        ("a clause of a public function", "dns_lists/src/buffer.rt", "        ensures { result ≡ [] }\n", "", above(module, "dns_lists")),
        ("a clause of a trait", "outside/src/side.rt", "ensures", "ensures weak", above(module, "outside")),
        ("a definition", "plugin_api/specs/Picking.antt", " = ", " =  0 + ", above(module, "plugin_api")),
    ]:
        put_back = copy.change(path, old, new)
        rows.equal(f"{what} changes: {path}", copy.due(), want)
        put_back()
    rows.equal("nothing is due once all is as it was", copy.due(), [])


def bodies(rows, module, copy):
    """In each crate a change of what is private makes its own part another, and leaves what others see."""
    module.TOP = copy.top
    wrong = []
    for name in module.crates():
        folder = os.path.join(copy.top, "crates", name, "src")
        path = os.path.join(folder, "main.rt" if os.path.exists(os.path.join(folder, "main.rt")) else "lib.rt")
        before = module.own_part(name), module.public_part(name)
        with open(path, "a") as file:
            file.write("\n// Idle.\nfn idle_of_a_test() -> u8 {\n    3\n}\n")
        after = module.own_part(name), module.public_part(name)
        shutil.copy(os.path.join(TOP, os.path.relpath(path, copy.top)), path)
        if before[0] == after[0] or before[1] != after[1]:
            wrong.append(name)
    rows.equal("a private function changes each crate's own sum and nobody else's", wrong, [])


def gates(rows, copy, module):
    """What .ci/run has `rt ci` try, and what it writes behind it."""
    with open(copy.refused) as file:
        lines = file.read().splitlines()
    chosen = ["dns_addr", "zone_words"]
    with open(copy.refused, "w") as file:
        file.write("\n".join(f"{line.split()[0]} 00" if line.split()[0] in chosen else line for line in lines) + "\n")
    rows.equal("a line that was changed by hand makes its crate's edits due", copy.due(), chosen)
    said = copy.ran(".ci/run", MISSED="zone_words")
    tried = sorted({line.split()[2].split("/")[0] for line in said.splitlines() if line.startswith("rt: must-fail ")})
    rows.equal("the gate tries the edits that are due, and no others", tried, chosen)
    rows.equal("a crate of which an edit wasn't refused stays due", copy.due(), ["zone_words"])
    copy.ran(".ci/run")
    rows.equal("behind a gate that saw them refused nothing is due", copy.due(), [])
    tried = {line.split()[2].split("/")[0] for line in copy.ran(".ci/run", "all").splitlines() if line.startswith("rt: must-fail ")}
    rows.equal("the whole gate tries every edit", sorted(tried), sorted(name for name in module.crates() if module.edits_of(name)))
    os.remove(copy.refused)
    rows.equal("all are due without the file", len(copy.due()), len(tried))


def main():
    rows = Rows()
    with tempfile.TemporaryDirectory() as room:
        copy = Copy(room)
        module = module_of(os.path.join(copy.top, "tools", "edit-sums"))
        with open(copy.refused, "w") as file:
            file.write(copy.ran("tools/edit-sums"))
        changes(rows, copy, module)
        bodies(rows, module, copy)
        gates(rows, copy, module)
    rows.end()


if __name__ == "__main__":
    main()
