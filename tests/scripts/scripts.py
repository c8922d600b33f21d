#!/usr/bin/env python3
"""Tests of the scripts at the root, each in a copy of its folder.

    scripts.py MAKETABLE PAGETABLE EXPLAIN

The programs are target/bin/maketable, target/bin/pagetable and target/cargo/release/explain. A small `rt` on PATH stands
for the kit: it proves nothing, takes as long as a case says and copies the program given for the crate; a `cargo` beside
it does the same. At the end each of FAULTS, an edit of a script or of a file of tools/, must make its case fail."""

import os
import pathlib
import re
import shutil
import signal
import subprocess
import sys
import tempfile
import time

ROOT = pathlib.Path(__file__).resolve().parents[2]
CARD_A = (ROOT / "examples/a.card").read_bytes()
TABLE_A = (ROOT / "examples/a.table").read_bytes()
CONFLICT = b"2 1 2 3 2 2 2 1 2 2 1"

# The scripts that run a proved program, which has their name, with how it begins its answer to card A.
PROVED = {"maketable": TABLE_A, "pagetable": b"   0     0     0     1     2  "}

# Stands for rt, in a crate's folder: `act` is what a case has it do between its first and its last line, at the root. Of
# sets, which was proved before, it says nothing. It writes into `out` of the crates, and runs a program that it has built.
RT = """#!/bin/sh
crate=${PWD##*/}
echo "begin $* $crate" >>"$FAKE/calls"
mkdir -p ../grammar/out/incremental/made out/incremental/made
case $1 in run) exec 4>&1 1>&2 ;; esac
echo "fn grammar::f: proved"
echo "crate grammar: modules loaded=1 checked=2"
echo "logic=proved functions=1"
cd ../..
. "$FAKE/act"
cd "crates/$crate"
echo "logic=proved functions=1"
case $1 in
run)
    cp "$FAKE/programs/$crate" "out/$crate"
    "out/$crate" >&4
    ;;
lib) echo "an archive" >"out/lib$crate.a" ;;
esac
cd ../..
echo "end $* $crate" >>"$FAKE/calls"
"""

CARGO = """#!/bin/sh
echo "cargo $1 $SIDUMZA_LIB" >>"$FAKE/calls"
. "$FAKE/cargo-act"
mkdir -p "$CARGO_TARGET_DIR/release"
cp "$FAKE/programs/explain" "$CARGO_TARGET_DIR/release/explain"
"""


class Room:
    """A copy of the scripts with a few crates; the folder's name has a blank. A case is about the script `name`, whose
    program prints `table` for card A; `other` is the other one of PROVED."""

    def __init__(self, programs, name, edit=None):
        self.name = name
        self.other, = set(PROVED) - {name}
        self.base = pathlib.Path(tempfile.mkdtemp(prefix="scripts."))
        self.base.chmod(0o755)
        self.root = self.base / "a copy"
        self.fake = self.base / "fake"
        for folder in [*[f"crates/{each}/src" for each in ["sets", "grammar", "generator_c", *PROVED]], "bindings/rust/src"]:
            (self.root / folder).mkdir(parents=True)
        for each in PROVED:
            (self.root / f"crates/{each}/src/main.rt").write_text("// a program\n")
        for file in ["Cargo.toml", "build.rs"]:
            (self.root / "bindings/rust" / file).write_text("# a source\n")
        for script in programs:
            shutil.copy(ROOT / script, self.root)
        shutil.copytree(ROOT / "tools", self.root / "tools", ignore=shutil.ignore_patterns("target"))
        if edit:
            old, new, *where = edit
            path = self.root / (where or ["tools/program.sh"])[0]
            text = path.read_text()
            assert text.count(old) == 1, f"{text.count(old)} times in {path.name}: {old}"
            path.write_text(text.replace(old, new))
        (self.root / "crates.txt").write_text("# a few\nsets:\ngrammar: sets\nmaketable: grammar sets json\n"
                                              "generator_c staticlib: grammar\npagetable: grammar sets json\n")
        self.source = self.root / "crates/grammar/src/lib.rt"
        self.source.write_text("// a source\n")
        self.fake.mkdir()
        for tool, text in [("rt", RT), ("cargo", CARGO), ("act", ""), ("cargo-act", "")]:
            (self.fake / tool).write_text(text)
            (self.fake / tool).chmod(0o755)
        (self.fake / "programs").mkdir()
        for each, program in programs.items():
            shutil.copy(program, self.fake / "programs" / each)
        self.table = self.plain(CARD_A, name)
        self.env = dict(os.environ, FAKE=str(self.fake), PATH=f"{self.fake}:{os.environ['PATH']}")
        self.started = []

    def act(self, text):
        (self.fake / "act").write_text(text)

    def calls(self):
        path = self.fake / "calls"
        return path.read_text().split("\n")[:-1] if path.exists() else []

    def plain(self, card, name):
        """What a program prints by itself."""
        return subprocess.run([self.fake / "programs" / name], input=card, capture_output=True).stdout

    def start(self, card=CARD_A, script=None, **more):
        """Starts the script in a process group of its own."""
        given = tempfile.TemporaryFile()
        given.write(card)
        given.seek(0)
        options = dict(stdin=given, stdout=subprocess.PIPE, stderr=subprocess.PIPE, cwd=self.root, env=self.env)
        ran = subprocess.Popen([script or f"./{self.name}"], start_new_session=True, **{**options, **more})
        self.started.append(ran)
        return ran

    def run(self, card=CARD_A, **more):
        """Status, standard output and standard error of a call."""
        ran = self.start(card, **more)
        out, err = ran.communicate(timeout=60)
        return ran.returncode, out, (err or b"").decode()

    def shell(self, command, env=None):
        ran = subprocess.run(["sh", "-c", command], cwd=self.root, env=env or self.env, capture_output=True, timeout=60)
        return ran.returncode, ran.stdout, ran.stderr.decode()

    def close(self):
        for ran in self.started:
            try:
                os.killpg(ran.pid, signal.SIGKILL)
            except ProcessLookupError:
                pass
            ran.wait()
        shutil.rmtree(self.base)


def same(what, got, wanted):
    assert got == wanted, f"{what}: {got!r}, expected {wanted!r}"


def says(err, *words):
    for word in words:
        assert word in err, f"said {err!r}, without {word!r}"


def wait_for(what, true):
    for _ in range(500):
        if true():
            return
        time.sleep(0.02)
    raise AssertionError(f"never: {what}")


def checked(name):
    """rt's calls of a build."""
    return [f"begin run {name}", f"end run {name}"]


def bare(room):
    """A folder with the tools that the scripts need, without the kit and cargo."""
    folder = room.base / "bare"
    folder.mkdir()
    for tool in ["sh", "find", "head", "readlink", "cat", "mkdir", "awk", "flock", "touch", "rm", "tail"]:
        (folder / tool).symlink_to(shutil.which(tool))
    return folder


def answers(room):
    """0 for a table or its pages, 1 for a refusal and `not a card`; the output is the program's, byte for byte."""
    room.run()
    same("a table", room.run(), (0, room.table, ""))
    same("how it begins", room.table[:len(PROVED[room.name])], PROVED[room.name])
    same("a refusal", room.run(CONFLICT), (1, b"refused 13 3 1 1 1024\n", ""))
    same("a refusal without values", room.run(b""), (1, b"refused 4\n", ""))
    same("not a card", room.run(b"x"), (1, b"not a card\n", ""))
    same("&&", room.shell(f"echo {CONFLICT.decode()} | ./{room.name} >t && echo went on"), (1, b"", ""))
    same("&&", room.shell(f"echo {' '.join(CARD_A.decode().split())} | ./{room.name} >t && echo went on"), (0, b"went on\n", ""))
    for path in sorted((ROOT / "tests/bison/data").glob("*.txt")):
        cards = re.findall(r"^card (.*)\ntable", path.read_text(), re.M)
        card = max(cards, key=len).encode() if cards else CARD_A
        same(f"the longest card of {path.name}", room.run(card), (0, room.plain(card, room.name), ""))


def calls(room):
    """No argument; also by links, from another folder and as a file that sh is given."""
    room.run()
    status, out, err = room.shell(f"./{room.name} card")
    same("an argument", (status, out), (2, b""))
    says(err, f"{room.name}: ", "no argument")
    links = room.base / "links"
    links.mkdir()
    (room.base / "link").symlink_to(f"a copy/{room.name}")
    (links / "again").symlink_to("../link")
    (links / "folder").symlink_to("../a copy")
    # called by the name of the other program, too: the file says which one runs
    (links / room.other).symlink_to(room.root / room.name)
    for script in ["again", f"folder/{room.name}", room.other]:
        same(f"by the link {script}", room.run(script=links / script, cwd=links), (0, room.table, ""))
    (room.root / "card").write_bytes(CARD_A)
    for command in [f"sh {room.name} <card", "cd ../links; sh ../link <folder/card",
                    f"PATH=$PWD:$PATH; cd ../links; {room.name} <folder/card"]:
        same(command, room.shell(command), (0, room.table, ""))


def failing_calls(room):
    """A read or write that fails is told, with status 2 and no output."""
    room.run()
    for what, command, words in [
        ("a folder read", f"./{room.name} <.", "read: Is a directory"),
        ("standard input closed", f"./{room.name} <&-", "read: standard input is closed"),
        ("standard output closed", f"./{room.name} <card >&-", "write: standard output is closed"),
        ("a full disk", f"./{room.name} <card >/dev/full", "write: No space left on device"),
        ("a full disk, a refusal", f"echo 1 | ./{room.name} >/dev/full", "write: No space left on device"),
        ("too small a stack", f"ulimit -s 100; ./{room.name} <card", "signal 11"),
    ]:
        (room.root / "card").write_bytes(CARD_A)
        status, out, err = room.shell(command)
        same(what, (status, out), (2, b""))
        says(err, f"{room.name}: ", words)
    same("standard error closed", room.shell(f"./{room.name} <card 2>&-"), (0, room.table, ""))
    same("standard error closed, a refusal", room.shell(f"echo 1 | ./{room.name} 2>&-"), (1, b"refused 4\n", ""))
    same("standard error and input closed", room.shell(f"./{room.name} <&- 2>&-"), (2, b"", ""))
    for what, options, words in [
        ("nobody reads", {}, ""),
        ("nobody reads, the signal ignored", {"restore_signals": False}, f"{room.name}: write: Broken pipe\n"),
    ]:
        read, write = os.pipe()
        os.close(read)
        same(what, room.run(stdout=write, **options), (2, None, words))
        os.close(write)


def builds(room):
    """What is missing or older than its sources is built, and only that; crates proved are counted."""
    status, out, err = room.run()
    same("the first call", (status, out), (0, room.table))
    same("its words", err.replace(str(room.root), "ROOT"),
         "NAME: ROOT/target/bin/NAME is missing: building it; from nothing this takes minutes\n"
         "NAME: proved 1, of 3 at most\nNAME: proved 2, of 3 at most\nNAME: built\n".replace("NAME", room.name))
    same("the second call", room.run(), (0, room.table, ""))
    same("rt's calls", room.calls(), checked(room.name))
    shutil.rmtree(room.root / "target")
    (room.root / "card").write_bytes(CARD_A)
    same("standard error closed", room.shell(f"./{room.name} <card 2>&-"), (0, room.table, ""))
    for what, change in [
        ("a source changed", lambda: room.source.write_text("// another\n")),
        ("a source removed", lambda: room.source.unlink()),
        ("crates.txt changed", lambda: (room.root / "crates.txt").touch()),
        ("the program removed", lambda: (room.root / f"target/bin/{room.name}").unlink()),
        ("the program built by other hands", lambda: (room.root / f"target/{room.name}.built").unlink()),
    ]:
        before = len(room.calls())
        time.sleep(0.02)
        change()
        status, out, err = room.run()
        same(what, (status, out), (0, room.table))
        says(err, "building", "built")
        same(f"{what}: rt's calls", len(room.calls()), before + 2)
        same(f"{what}, then nothing", room.run(), (0, room.table, ""))


def changed_meanwhile(room):
    """A source changed during a build is built at the next call."""
    room.act("sleep 0.05; echo '// changed' >crates/grammar/src/lib.rt; sleep 0.05")
    same("the first call", room.run()[:2], (0, room.table))
    room.act("")
    status, out, err = room.run()
    same("the second call", (status, out), (0, room.table))
    says(err, "older than its sources", "built")
    same("the third call", room.run(), (0, room.table, ""))


# rt goes on when the case says so
UNTIL_GO = 'echo >"$FAKE/asleep"; while [ ! -e "$FAKE/go" ]; do sleep 0.05; done'


def start_behind(room, script=None):
    """Starts a call while a build is under way; lets the build go on once the call waits for it, or builds, or ends."""
    said = room.base / "said"
    with open(said, "wb") as err:
        ran = room.start(script=script, stderr=err)
    begun = len(room.calls())
    wait_for("the second call waits", lambda: b"waiting" in said.read_bytes() or len(room.calls()) > begun
             or ran.poll() is not None)
    (room.fake / "go").touch()
    out, _ = ran.communicate(timeout=60)
    return ran.returncode, out, said.read_text()


def two_at_once(room):
    """Two first builds do not meet: one waits and then finds the program."""
    room.act(UNTIL_GO)
    one = room.start()
    wait_for("the build is under way", (room.fake / "asleep").exists)
    status, out, err = start_behind(room)
    same("the second", (status, out), (0, room.table))
    says(err, "waiting")
    out, err = one.communicate(timeout=60)
    same("the first", (one.returncode, out), (0, room.table))
    same("rt's calls", room.calls(), checked(room.name))


def one_of_each(room):
    """Two first builds, one of each program, do not meet: one waits and then builds its own."""
    room.act(UNTIL_GO)
    one = room.start()
    wait_for("the build is under way", (room.fake / "asleep").exists)
    status, out, err = start_behind(room, f"./{room.other}")
    same("the other", (status, out), (0, room.plain(CARD_A, room.other)))
    says(err, "waiting", "built")
    out, err = one.communicate(timeout=60)
    same("the first", (one.returncode, out), (0, room.table))
    same("rt's calls", room.calls(), checked(room.name) + checked(room.other))


def apart(room):
    """The build of one program neither makes nor ends that of the other."""
    def runs(what, name, built):
        before = len(room.calls())
        same(f"{what}, {name}", room.run(script=f"./{name}")[:2], (0, room.plain(CARD_A, name)))
        same(f"{what}, {name}: rt's calls", room.calls()[before:], checked(name) if built else [])

    def change():
        time.sleep(0.02)
        room.source.write_text("// another\n")

    one, other = room.name, room.other
    for what, built in [("the first calls", True), ("then nothing", False)]:
        runs(what, one, built)
        runs(what, other, built)
    change()
    runs("a source changed", one, True)
    runs("a source changed", other, True)
    made = room.root / "target"
    same("the stamps", sorted(path.name for path in made.glob("*.built")), [f"{name}.built" for name in PROVED])
    for path in [made / "bin" / one, made / f"{one}.built"]:
        path.unlink()
        runs(f"{path.name} removed", other, False)
        runs(f"{path.name} removed", one, True)
    change()
    room.act(f'[ "$crate" != {one} ] || {{ echo "fn {one}::main: not proved"; exit 1; }}')
    status, out, err = room.run()
    same("a failed build", (status, out), (2, b""))
    runs("the other's failed", other, True)
    says(pathlib.Path(err.strip().rpartition("said is in ")[2]).read_text(), f"fn {one}::main: not proved")
    same("a failed build, again", room.run()[:2], (2, b""))
    room.act("")
    runs("no longer failing", one, True)
    runs("no longer failing", other, False)


def killed(room):
    """A build that is killed with all its processes leaves no lock, and nothing of it is taken for built."""
    room.act(f'mkdir -p target/bin; cp /bin/true target/bin/{room.name}; echo >"$FAKE/asleep"; sleep 600')
    one = room.start()
    wait_for("the build is under way", (room.fake / "asleep").exists)
    os.killpg(one.pid, signal.SIGKILL)
    one.wait()
    room.act("")
    begun = time.monotonic()
    status, out, err = room.run()
    same("the next call", (status, out), (0, room.table))
    says(err, "built")
    assert time.monotonic() - begun < 20, "the next call waited"


def script_killed(room):
    """Where the script alone is killed its build goes on: the next call waits for it."""
    room.act(UNTIL_GO)
    one = room.start()
    wait_for("the build is under way", (room.fake / "asleep").exists)
    os.kill(one.pid, signal.SIGKILL)
    one.wait()
    room.act("")
    status, out, err = start_behind(room)
    same("the next call", (status, out), (0, room.table))
    says(err, "waiting", "built")
    same("rt's calls", room.calls(), checked(room.name) * 2)


def fails(room):
    """A failed build shows its first error; nothing older is run in its place."""
    room.run()
    time.sleep(0.02)
    room.source.write_text("// wrong\n")
    room.act("""printf '%s\\n' 'fn grammar::f: proved' 'x/lib.rt:10:5: error: `f`: expected 1' '  found 2' 'fn grammar::g: proved' \\
        'x/lib.rt:20:5: error: `g`: another' 'fn grammar::h: not proved' 'rt: the library grammar did not build'; exit 1""")
    for _ in range(2):
        status, out, err = room.run()
        same("a failed build", (status, out), (2, b""))
        says(err, "lib.rt:10:5: error: `f`: expected 1\n  found 2\n", "could not be built", f"target/{room.name}.log")
        assert "another" not in err, f"more than the first error: {err}"
    says((room.root / f"target/{room.name}.log").read_text(), "another", "rt: the library grammar did not build")
    room.act("printf '%s\\n' 'rt: a line' 'fn grammar::f: no proof: a goal' 'rt: the end' ''; exit 1")
    says(room.run()[2], "fn grammar::f: no proof: a goal\n")
    room.act("echo \"rt: $PWD/crates.txt: write NAME\" >&2; exit 2")
    says(room.run()[2], "crates.txt: write NAME")
    (room.root / f"crates/{room.name}/out/{room.name}").unlink()
    (room.root / f"target/bin/{room.name}").unlink()
    room.act("exit 0")
    status, out, err = room.run()
    same("no program left", (status, out), (2, b""))
    says(err, "could not be built")


def no_kit(room):
    """Without rt a missing program is trouble, one that is there is run."""
    tools = bare(room)
    env = dict(room.env, PATH=str(tools))
    (room.root / "card").write_bytes(CARD_A)
    status, out, err = room.shell(f"./{room.name} <card", env)
    same("no program and no kit", (status, out), (2, b""))
    says(err, "no rt on PATH")
    room.run()
    same("a program and no kit", room.shell(f"./{room.name} <card", env), (0, room.table, ""))
    (tools / "flock").unlink()
    (tools / "rt").symlink_to(room.fake / "rt")
    (room.root / f"target/bin/{room.name}").unlink()
    status, out, err = room.shell(f"./{room.name} <card", env)
    same("no flock", (status, out), (2, b""))
    says(err, "no flock on PATH")
    (tools / "readlink").unlink()
    status, out, err = room.shell(f"./{room.name} <card", env)
    same("no readlink", (status, out), (2, b""))
    says(err, "readlink")


def unwritable(room):
    """A folder that cannot be written is told."""
    (room.root / "card").write_bytes(CARD_A)
    (room.root / "target").write_text("a file\n")
    status, out, err = room.shell(f"./{room.name} <card")
    same("target is a file", (status, out), (2, b""))
    says(err, "cannot be written", "is missing")
    (room.root / "target").unlink()
    # root may write everywhere, nobody may not
    drop = "setpriv --reuid=65534 --regid=65534 --clear-groups " if os.getuid() == 0 else ""
    room.root.chmod(0o555)
    try:
        status, out, err = room.shell(drop + f"./{room.name} <card")
        same("a folder that cannot be written", (status, out), (2, b""))
        says(err, "cannot be written")
    finally:
        room.root.chmod(0o755)
    room.run()
    room.source.touch()
    (room.root / "target").chmod(0o555)
    try:
        status, out, err = room.shell(drop + f"./{room.name} <card")
        same("target cannot be written", (status, out), (2, b""))
        says(err, "cannot be written")
    finally:
        (room.root / "target").chmod(0o755)


EXPLAINED_A = b"""T 3, N 1, P 2, L 3
end marker 0, terminals 1 to 2; start 3
production 0 : 3 -> 3 1
production 1 : 3 -> 2
table 4 3 1 2
The maker makes a table: 4 states, 3 terminals, 1 nonterminal, 2 productions; 28 numbers in all.
"""


def explains(room):
    """explain: built where it is missing or older than its sources, and then run; failing calls are told."""
    (room.root / "card").write_bytes(CARD_A)
    status, out, err = room.shell("./explain <card")
    same("the first call", (status, out), (0, EXPLAINED_A))
    says(err, "explain is missing: building", "proved 2, of 3 at most", "built")
    built = ["begin lib generator_c", "end lib generator_c", f"cargo build {room.root}/target/staticlib"]
    same("the archive", [(path.name, path.read_text()) for path in room.root.glob("target/staticlib/*")],
         [("libgenerator_c.a", "an archive\n")])
    same("its calls", room.calls(), built)
    same("the second call", room.shell("./explain <card"), (0, EXPLAINED_A, ""))
    (room.base / "link").symlink_to("a copy/explain")
    same("by a link", room.shell("../link <card"), (0, EXPLAINED_A, ""))
    for crate in ["tools/explain", "bindings/rust"]:
        time.sleep(0.02)
        (room.root / crate / "target/release").mkdir(parents=True)
        (room.root / crate / "target/release/made.rs").write_text("made\n")
        same(f"what cargo wrote in {crate}", room.shell("./explain <card"), (0, EXPLAINED_A, ""))
    for path in ["crates/grammar/src/lib.rt", "tools/explain/src/lib.rs", "tools/explain/Cargo.toml", "bindings/rust/src/lib.rs"]:
        before = len(room.calls())
        time.sleep(0.02)
        (room.root / path).write_text("changed\n")
        status, out, err = room.shell("./explain <card")
        same(f"{path} changed", (status, out, room.calls()[before:]), (0, EXPLAINED_A, built))
        same("then nothing", room.shell("./explain <card"), (0, EXPLAINED_A, ""))
    status, out, err = room.shell("echo 3 1 2 | ./explain")
    same("a refusal", (status, out.split(b"\n")[0], err), (1, b"refused 4", ""))
    status, out, err = room.shell("echo 3 x 2 | ./explain")
    same("not a card", (status, out.split(b"\n")[0], err), (1, b"not a card", ""))
    for what, command, words in [
        ("an argument", "./explain card", "no argument"),
        ("a folder read", "./explain <.", "read: Is a directory"),
        ("standard input closed", "./explain <&-", "read: standard input is closed"),
        ("standard output closed", "./explain <card >&-", "write: standard output is closed"),
        ("a full disk", "./explain <card >/dev/full", "write: No space left on device"),
    ]:
        status, out, err = room.shell(command)
        same(what, (status, out), (2, b""))
        says(err, "explain: ", words)
    same("standard error closed", room.shell("./explain <card 2>&-"), (0, EXPLAINED_A, ""))
    room.source.touch()
    for name, act, words in [("cargo-act", "echo 'error: could not compile' >&2; exit 101", "error: could not compile"),
                             ("act", "echo 'fn grammar::f: not proved'; exit 1", "fn grammar::f: not proved")]:
        (room.fake / name).write_text(act)
        status, out, err = room.shell("./explain <card")
        same("a failed build", (status, out), (2, b""))
        says(err, words, "could not be built", "target/explain.log")
    (room.fake / "act").write_text("")
    (room.fake / "cargo-act").write_text("exit 0")
    (room.root / "target/cargo/release/explain").unlink()
    status, out, err = room.shell("./explain <card")
    same("no tool left", (status, out), (2, b""))
    says(err, "has left no")
    (room.fake / "cargo").unlink()
    status, out, err = room.shell("./explain <card", dict(room.env, PATH=f"{room.fake}:{bare(room)}"))
    same("no cargo", (status, out), (2, b""))
    says(err, "no cargo on PATH")


def layers(room):
    """tools/seconds.sh and tools/layers.py: the seconds of each crate, and what stands above it with its seconds."""
    status, out, err = room.shell("sh tools/seconds.sh")
    same("the crates", (status, re.sub(rb"[0-9]+ s", b"0 s", out), err), (0, b"".join(
        b"rt: %s proved (0 s)\n" % name for name in [b"sets", b"grammar", b"maketable", b"generator_c", b"pagetable"]), ""))
    for what, act, words in [
        ("kept work", 'echo "rt: $crate: begins with what a check kept in /elsewhere"', "sets does not begin with nothing"),
        ("a crate that is not proved", "exit 1", "sets is not proved"),
    ]:
        room.act(act)
        status, out, err = room.shell("sh tools/seconds.sh")
        same(what, (status, out), (1, b""))
        says(err, words)
    said = "".join(f"rt: {name} proved ({took} s)\n" for name, took in
                   [("sets", 5), ("grammar", 7), ("maketable", 20), ("generator_c", 100), ("pagetable", 1000)])
    (room.root / "said").write_text("fn sets::has: proved\n" + said + "rt: ok, 5 crates proved\n")
    same("the rows", room.shell("python3 tools/layers.py <said"), (0, b"""| crate | its own seconds | proved again | seconds of all |
|---|---|---|---|
| sets | 5 | 5 | 1132 |
| grammar | 7 | 4 | 1127 |
| maketable | 20 | 1 | 20 |
| generator_c | 100 | 1 | 100 |
| pagetable | 1000 | 1 | 1000 |
""", ""))
    for what, command, words in [
        ("a crate without seconds", "grep -v grammar said | python3 tools/layers.py", "no seconds of grammar"),
        ("unchanged crates", "sed 's/(7 s)/(unchanged since it was last proved)/' said | python3 tools/layers.py", "no seconds of grammar"),
        ("nothing said", "python3 tools/layers.py </dev/null", "no seconds of sets, grammar, maketable, generator_c, pagetable"),
        ("an argument", "python3 tools/layers.py said", "no argument"),
        ("standard input closed", "python3 tools/layers.py <&-", "Bad file descriptor"),
        ("standard output closed", "python3 tools/layers.py <said >&-", "Bad file descriptor"),
        ("a full disk", "python3 tools/layers.py <said >/dev/full", "No space left on device"),
        ("no crates.txt", "rm crates.txt; python3 tools/layers.py <said", "No such file"),
    ]:
        status, out, err = room.shell(command)
        same(what, (status, out), (2, b""))
        says(err, "layers: ", words)


# each for both programs
TWICE = [answers, calls, failing_calls, builds, changed_meanwhile, two_at_once, one_of_each, apart, killed, script_killed,
         fails, no_kit, unwritable]
CASES = [(case, name) for case in TWICE for name in PROVED] + [(explains, "maketable"), (layers, "maketable")]

# A fault is planted for maketable, or for the program that is named behind it.
FAULTS = [
    ("what cargo writes taken for a source", explains, (' bindings/rust/src ', ' bindings/rust ', "explain")),
    ("status 0 for refusals", answers, ("exit 1 ;; esac", "exit 0 ;; esac")),
    ("status 0 for `not a card`", answers, ("'refused '* | 'not a card'*)", "'refused '*)")),
    ("the last line feed lost", answers, ("        echo .\n", "")),
    ("a line feed more", answers, ("printf '%s' \"$text\"", "printf '%s\\n' \"$text\"")),
    ("an argument passed over", calls, ("[ $# -eq 0 ] || trouble", "true || trouble")),
    ("closed input not seen", failing_calls, ("{ true 3<&0; } 2>/dev/null ||", "true ||")),
    ("closed output not seen", failing_calls, ("{ true 3>&1; } 2>/dev/null ||", "true ||")),
    ("status 1 for a full disk", failing_calls, ("${why##*: }\"\n        exit 2", "${why##*: }\"\n        exit 1")),
    ("a full disk without words", failing_calls, ('[ -z "$why" ] || say', "true || say")),
    ("status 0 where a read failed", failing_calls, ('[ -n "$text" ] || exit 2', '[ -n "$text" ] || exit 0')),
    ("a signal not seen", failing_calls, ("\n        exit \"$ended\"", "\n        exit 0")),
    ("words need standard error", builds, ('"$*" >&2 || :', '"$*" >&2')),
    ("a lost reader not seen", failing_calls, ("${why##*: }\"\n        exit 2", "${why##*: }\"")),
    ("crates not counted", builds, ("            proved=$((proved + 1))\n", "")),
    ("crates of others counted", builds, ("if (now[k] in below &&", "if (")),
    ("built at each call", builds, ('touch -r "$began" "$stamp"', "true")),
    ("a removed source not seen", builds, ("-type d -path 'crates/*/*' -o ", "-false -o ")),
    ("what rt writes taken for a source", builds, ("-name out -prune -o ", "")),
    ("a folder that rt writes into taken for a source", builds, ("-type d ! -path 'crates*' -o ", "-type d -o ")),
    ("crates.txt not looked at", builds, ("-name crates.txt -o ", "")),
    ("an unstamped program taken", builds, ('[ ! -f "$stamp" ]', "false")),
    ("stamped after the build", changed_meanwhile, ('touch -r "$began"', "touch")),
    ("no lock", two_at_once, ("flock -n 9", "true")),
    ("no second look behind the lock", two_at_once,
     ('    why=$(stale "$file" "$@")\n    if [ -n "$why" ]', '    why=missing\n    if [ -n "$why" ]')),
    ("the second does not wait", two_at_once, ("flock 9 || trouble", "false || trouble")),
    ("a half program taken for built", killed, ('[ ! -f "$stamp" ]', "false")),
    ("the lock ends with the script", script_killed, ("status=$({ {", "status=$(exec 9>&-; { {")),
    ("a failed build passed over", fails, ('if [ "$status" != 0 ]', "if false")),
    ("the last error shown", fails, ("found { exit }", "")),
    ("errors not shown", fails, ('first_error "$log" >&2 || :', "true")),
    ("the log not kept", fails, ("printf '%s\\n' \"$line\" >&8", "true")),
    ("rt taken to be there", no_kit, ("command -v rt >/dev/null ||", "true ||")),
    ("flock taken to be there", no_kit, ("command -v flock >/dev/null ||", "true ||")),
    ("what is kept not seen", layers, ("! grep", "true || grep", "tools/seconds.sh")),
    ("a crate that is not proved passed over", layers, ('is not proved: see $log" >&2; exit 1;', 'is not proved: see $log" >&2;', "tools/seconds.sh")),
    ("only what stands directly above", layers, ("        found |= more\n", "        return found | more\n", "tools/layers.py")),
    ("a crate without seconds passed over", layers, ("if missing or not crates:", "if not crates:", "tools/layers.py")),
    ("Rust sources not looked at", explains, ("-o -name '*.rs' ", "")),
    ("Cargo.toml not looked at", explains, ("-o -name Cargo.toml ", "")),
    ("an unwritable folder without words", unwritable, ("mkdir -p \"$root/target\" && true", "mkdir -p \"$root/target\" && :")),
    ("status 1 for all but tables", answers, ("'refused '* | 'not a card'*) exit 1", "'table '*) ;; *) exit 1"), "pagetable"),
    ("blanks at the ends of lines lost", answers, ("LC_ALL=C cat >&3", "sed 's/ *$//' >&3"), "pagetable"),
    ("a link not followed", calls, ('$(readlink -f -- "$0")', "$0", "maketable")),
    ("one link followed", calls, ('$(readlink -f -- "$0")', '$(readlink -- "$0" || echo "$PWD/$0")', "pagetable"), "pagetable"),
    ("the folder of the call taken", calls, ("root=${self%/*}", "root=$PWD")),
    ("named as it was called", calls, ("name=${self##*/}", "name=${0##*/}")),
    ("one program for all", apart, ("name=${self##*/}", "name=maketable")),
    ("one stamp for all", apart, ("stamp=$root/target/$name.built", "stamp=$root/target/all.built")),
    ("one log for all", apart, ("log=$root/target/$name.log", "log=$root/target/all.log")),
    ("the stamps of all removed", apart, ('rm -f "$stamp"', 'rm -f "$root"/target/*.built')),
    ("a lock for each", one_of_each, ("lock=$root/target/build.lock", "lock=$root/target/$name.lock")),
    ("a program not taken from rt", builds, ('put "crates/$crate/out/$crate" target/bin', ":", "tools/build.sh")),
    ("a build that leaves nothing taken", explains, ('[ -x "$file" ] || trouble "the build', 'true || trouble "the build')),
    ("an archive not taken from rt", explains, ('put "crates/$crate/out/lib$crate.a" target/staticlib', ":", "tools/build.sh")),
    ("another status without readlink", no_kit, ("|| exit 2", "|| exit 1", "pagetable"), "pagetable"),
]


def finds(case, *room):
    """What a case finds wrong in a room; nothing where all is right."""
    room = Room(*room)
    try:
        case(room)
    except (AssertionError, subprocess.TimeoutExpired) as error:
        return error
    finally:
        room.close()


def main():
    if len(sys.argv) != 4:
        sys.exit(__doc__)
    programs = dict(zip([*PROVED, "explain"], [pathlib.Path(path).resolve() for path in sys.argv[1:]]))
    bad = 0
    for case, name in CASES:
        if error := finds(case, programs, name):
            bad += 1
            print(f"{case.__name__}, {name}: {error}")
    missed = 0
    for what, case, edit, *name in FAULTS if not bad else []:
        if not finds(case, programs, *(name or ["maketable"]), edit):
            missed += 1
            print(f"NOT FOUND by {case.__name__}: {what}")
    print(f"{len(CASES)} cases, {bad} failed; {len(FAULTS)} planted faults, {missed} not found")
    sys.exit(bad + missed != 0)


if __name__ == "__main__":
    main()
