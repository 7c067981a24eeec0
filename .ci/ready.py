#!/usr/bin/env python3
"""Tries `./cocoon`, the program that is shipped and what compares it, in a copy of this checkout; the gate runs it.

    .ci/ready.py [TEST..]     these tests, or all of them

The copy ships the program that the gate left. There the sources, the program, the machine and the kit are changed, and it is seen which program
`./cocoon` runs: the shipped one, or one that a pretended kit builds, which prints `built` and its words. It prints a line for each thing that
is wrong, and ends with status 1 if there is one.
"""

import contextlib
import hashlib
import os
import pathlib
import shutil
import signal
import subprocess
import sys
import tempfile
import time

TOP = pathlib.Path(__file__).resolve().parent.parent
PROGRAM = TOP / "crates" / "cocoon" / "out" / "cocoon"
# All that `./cocoon` needs of a machine on which the shipped program runs.
TOOLS = "awk cmp cut find grep mkdir mv readlink rm sed sha256sum sh sort uname xargs".split()
NOBODY = 65534
COMPILED = "compiled switches 1 hosts 4 links 4 obligations 0\n"
KIT = "a kit of the tests"
PRETENDED_KIT = f"""#!/bin/sh
here=${{0%/*}}
if [ "$1" = version ]; then echo '{KIT}'; exit "$(cat "$here/version-status")"; fi
echo called >>"$here/calls"
sleep "$(cat "$here/seconds")"
mkdir -p crates/cocoon/out
printf '#!/bin/sh\\necho built "$@"; [ -n "$1" ] || exit 2\\n' >crates/cocoon/out/cocoon
chmod +x crates/cocoon/out/cocoon
for crate in crates/*; do echo "rt: ${{crate##*/}} proved"; done
cat "$here/verdict"
"""


class Room:
    """A copy of the checkout with folders of commands: what every machine has, and with the pretended kit besides."""

    def __init__(self, at):
        self.at, self.top, self.work = at, at / "checkout", at / "work"
        for name in ("bare", "kit", "machine", "work", "rooms"):
            (at / name).mkdir()
        for name in TOOLS:
            (at / "bare" / name).symlink_to(shutil.which(name))
        (at / "kit" / "python3").symlink_to(sys.executable)
        (at / "kit" / "rt").write_text(PRETENDED_KIT)
        (at / "machine" / "uname").write_text("#!/bin/sh\necho Linux riscv64\n")
        for path in (at / "kit" / "rt", at / "machine" / "uname"):
            path.chmod(0o755)
        self.kit(seconds="0", verdict="1 passed, 0 failed\n")
        for tool in ("sleep", "mkdir", "chmod", "cat"):
            (at / "kit" / tool).symlink_to(shutil.which(tool))
        self.copy(TOP, self.top)
        self.build(PROGRAM.read_bytes())
        shipped = self.python("bench/ship.py")
        if shipped.returncode:
            sys.exit(f"ready: the copy cannot ship the program\n{shipped.stderr}")
        self.forget_build()

    @staticmethod
    def copy(top, to):
        """A copy without times, as a clone is; what is built comes with it where it is no copy of this checkout."""
        leave = shutil.ignore_patterns("out", ".git", "must-fail", "planted", "__pycache__") if top == TOP else None
        shutil.copytree(top, to, ignore=leave, copy_function=shutil.copy)

    def kit(self, **files):
        """What the pretended kit does from now on."""
        for name, text in {"calls": "", "version-status": "0", **files}.items():
            (self.at / "kit" / name).write_text(text)

    def calls(self):
        return (self.at / "kit" / "calls").read_text().count("called")

    def write(self, name, content):
        path = self.top / name
        path.parent.mkdir(parents=True, exist_ok=True)
        path.write_bytes(content)
        return path

    @contextlib.contextmanager
    def changed(self, name, at=-1):
        """Another byte, at the end or there, in a file that keeps its size and time; and then as it was."""
        path = self.top / name
        old, status = path.read_bytes(), path.stat()
        new = bytearray(old)
        new[at] ^= 1
        path.write_bytes(new)
        os.utime(path, ns=(status.st_atime_ns, status.st_mtime_ns))
        yield
        path.write_bytes(old)
        os.utime(path, ns=(status.st_atime_ns, status.st_mtime_ns))

    def environment(self, *folders):
        return {"PATH": ":".join(str(self.at / name) for name in (*folders, "bare")), "TMPDIR": str(self.at / "rooms")}

    def python(self, script, *words):
        """A script of the copy, with the pretended kit."""
        words = [sys.executable, self.top / script, *words]
        return subprocess.run(words, cwd=self.at, env=self.environment("kit"), stdin=subprocess.DEVNULL, capture_output=True, text=True)

    def start(self, *words, path=None, folders=(), before=(), **how):
        how = {"cwd": self.work, "env": self.environment(*folders), "stdin": subprocess.DEVNULL, **how}
        words = [*before, path or self.top / "cocoon", *words]
        return subprocess.Popen(words, stdout=subprocess.PIPE, stderr=subprocess.PIPE, text=True, **how)

    def run(self, *words, **how):
        """The status, the standard output and the standard error."""
        with self.start(*words, **how) as process:
            out, err = process.communicate()
        return process.returncode, out, err

    def compile(self, **how):
        examples = self.top / "examples"
        return self.run("compile", examples / "c.ccn", examples / "c.defs", "lab", **how)

    def forget(self):
        shutil.rmtree(self.top / "out", ignore_errors=True)

    def build(self, program):
        """What the kit leaves."""
        path = self.write("crates/cocoon/out/cocoon", program)
        path.chmod(0o755)
        return path

    def forget_build(self):
        shutil.rmtree(self.top / "crates" / "cocoon" / "out", ignore_errors=True)


WRONG = []


def expect(is_so, what, found=None):
    if not is_so:
        WRONG.append(what if found is None else f"{what}: {found!r}")


def expect_shipped(ran, where):
    expect(ran == (0, COMPILED, ""), f"{where}: the shipped program is run, and nothing is said about it", ran)


def expect_refused(ran, reason, where):
    status, out, err = ran
    expect(status == 2 and not out and reason in err and "cannot be built here" in err, f"{where}: it has to be built, and cannot be", ran)


# ---- which program is run


def test_fresh_clone(room):
    seconds = []
    for _ in range(3):
        room.forget()
        began = time.monotonic()
        expect_shipped(room.compile(), "a fresh clone without the kit")
        seconds.append(time.monotonic() - began)
    expect(min(seconds) < 1, "a fresh clone answers in less than a second", seconds)
    expect_shipped(room.compile(), "the second call")
    expect((room.top / "out" / "seen").is_file(), "what was seen is noted")
    expect(sorted(os.listdir(room.work)) == ["lab.certs.json", "lab.net.json", "lab.s1.p4", "lab.s1.rows.json"], "the bundle is in the current directory")


def test_called_from_elsewhere(room):
    for name in ("link", "to-link"):
        (room.work / name).unlink(missing_ok=True)
    (room.work / "link").symlink_to(room.top / "cocoon")
    (room.work / "to-link").symlink_to("link")
    for path in ("./link", "./to-link", os.path.relpath(room.top / "cocoon", room.work)):
        expect_shipped(room.compile(path=path), f"called as {path}")
    for path, folder in (("./cocoon", room.top), ("../cocoon", room.top / "crates")):
        expect(room.run(path=path, cwd=folder)[0] == 2, f"called as {path} without words")
    with room.start("cocoon", path="sh", cwd=room.top) as process:
        expect(process.communicate()[0].startswith("usage "), "called as `sh cocoon`")


def without_power():
    """How a command is run by which nothing can be written that may not be: as nobody; where shells of other users do not work, as root without
    its powers."""
    if os.geteuid():
        return {}
    if os.stat(os.devnull).st_mode & 0o002:
        return {"user": NOBODY, "group": NOBODY, "extra_groups": []}
    return {"before": [shutil.which("setpriv"), "--bounding-set=-all", "--inh-caps=-all"]}


def test_read_only(room):
    room.forget()
    folders = [path for path in room.top.rglob("*") if path.is_dir()] + [room.top]
    how = without_power()
    for path in folders:
        path.chmod(0o555)
    room.work.chmod(0o777)
    for call in ("first", "second"):
        for path in room.work.glob("lab.*"):
            path.unlink()
        expect_shipped(room.compile(**how), f"a clone that cannot be written, {call} call")
    expect(not (room.top / "out").exists(), "nothing is noted in a clone that cannot be written")
    for path in folders:
        path.chmod(0o755)


def test_sources(room):
    crate = "crates/cocoon_cli"
    own = [next((room.top / crate / part).rglob(f"*.{end}")).relative_to(room.top) for part, end in (("src", "rt"), ("specs", "antt"), ("proofs", "antt"))]
    for name in ("HANDLES", "crates.txt", *own):
        room.compile()
        if name == "crates.txt":
            continue
        with room.changed(name):
            expect_refused(room.compile(), "built from other sources", f"another byte in {name}")
        expect_shipped(room.compile(), f"{name} as it was")
    lines = (room.top / "crates.txt").read_bytes()
    room.write("crates.txt", lines.replace(b"cocoon: cocoon_cli", b"cocoon:  cocoon_cli"))
    expect_refused(room.compile(), "built from other sources", "another byte in crates.txt")
    room.write("crates.txt", lines)
    added = room.write(f"{crate}/src/added.rt", b"// another file\n")
    expect_refused(room.compile(), "built from other sources", "one more file")
    added.unlink()
    for name in ("examples/a.ccn", "crates/cocoon/stdout", "crates/command_tests/src/main.rt", "docs/MAP.md"):
        with room.changed(name):
            expect_shipped(room.compile(), f"another byte in {name}, of which the program is not made")


def test_shipped_program(room):
    record = (room.top / "dist" / "cocoon.txt").read_bytes()
    of_program, of_machine = record.index(b"program") + 10, record.index(b"machine") + 10
    changes = [("dist/cocoon", -1, "not the one of its record"), ("dist/cocoon.txt", 10, "from other sources")]
    changes += [("dist/cocoon.txt", of_program, "not the one of its record"), ("dist/cocoon.txt", of_machine, "for another machine")]
    for name, at, reason in changes:
        room.compile()
        with room.changed(name, at):
            expect_refused(room.compile(), reason, f"another byte in {name}")
    expect_shipped(room.compile(), "the program as it was")
    (room.top / "dist" / "cocoon").chmod(0o644)
    expect_refused(room.compile(), "not the one of its record", "a program that may not be run")
    (room.top / "dist" / "cocoon").chmod(0o755)


def test_other_machine(room):
    room.compile()
    for call in ("seen", "not seen"):
        expect_refused(room.compile(folders=["machine"]), "for another machine", f"another machine, {call}")
        room.forget()
    shipped, record = (room.top / "dist" / name for name in ("cocoon", "cocoon.txt"))
    old = shipped.read_bytes(), record.read_bytes()
    shipped.write_bytes(b"#!/no/such/loader\n")
    text = old[1].replace(hashlib.sha256(old[0]).hexdigest().encode(), hashlib.sha256(shipped.read_bytes()).hexdigest().encode())
    record.write_bytes(text)
    expect_refused(room.compile(), "cannot be run on this machine", "a machine that lacks what the program is loaded by")
    shipped.write_bytes(old[0])
    record.write_bytes(old[1])


# ---- what is built here


@contextlib.contextmanager
def other_sources(room):
    """The copy with other sources, of which nothing is built yet."""
    room.kit()
    with room.changed("crates/cocoon_num/src/lib.rt"):
        yield
    room.forget_build()


def test_build(room):
    record = (room.top / "dist/cocoon.txt").read_bytes()
    room.write("dist/cocoon.txt", record.replace(KIT.encode(), b"an older kit"))
    with other_sources(room):
        status, out, err = room.run("a", "b", folders=["kit"])
        expect((status, out) == (0, "built a b\n"), "what is built is run", (status, out))
        for words in (f"this kit is {KIT}; ", "built with an older kit", " crates, which takes about ", "if this is broken off", "cocoon_num is proved: ", " % done, 10 crates left, about "):
            expect(words in err, f"a build says `{words}`", err)
        expect(room.run("a", folders=["kit"]) == (0, "built a\n", "") and room.calls() == 1, "what is built is not built again")
        copy = room.at / "copy"
        room.copy(room.top, copy)
        for path in copy.rglob("*.rt"):
            os.utime(path, (time.time() + 3600,) * 2)
        shutil.rmtree(copy / "out", ignore_errors=True)
        expect(room.run("a", path=copy / "cocoon", folders=["kit"]) == (0, "built a\n", ""), "a copy with other times does not build")
        shutil.rmtree(copy)
        with room.changed("crates/cocoon/src/main.rt"):
            expect(room.run("a", folders=["kit"])[:2] == (0, "built a\n") and room.calls() == 2, "sources that changed again are built again")
    room.write("dist/cocoon.txt", record)
    expect_shipped(room.compile(), "the sources as they were")


def test_two_builds(room):
    with other_sources(room):
        room.kit(seconds="1")
        both = [room.start("x", folders=["kit"]) for _ in range(2)]
        ended = [(*process.communicate(), process.returncode) for process in both]
        expect(all((out, status) == ("built x\n", 0) for out, _, status in ended) and room.calls() == 1, "two at once build once", ended)
        expect(sum("another build" in err for _, err, _ in ended) == 1, "one of two says that it waits", ended)
    room.kit(seconds="0")


def test_broken_off(room):
    with other_sources(room):
        room.kit(seconds="60")
        process = room.start("x", folders=["kit"], start_new_session=True)
        while not room.calls():
            time.sleep(0.02)
        os.killpg(process.pid, signal.SIGTERM)
        out, err = process.communicate()
        expect(process.returncode and not out and "broken off" in err, "a build that is broken off says so", (process.returncode, out, err))
        expect(not (room.top / "crates/cocoon/out/cocoon").exists() and not os.listdir(room.at / "rooms"), "it leaves nothing")
        room.kit(seconds="0")
        expect(room.run("x", folders=["kit"])[:2] == (0, "built x\n"), "the next one builds")


def test_failing_kit(room):
    with other_sources(room):
        room.kit(verdict="rt: cdcl NOT PROVED\n1 passed, 1 failed\n")
        status, out, err = room.run("x", folders=["kit"])
        expect((status, out) == (2, "") and "NOT PROVED" in err, "what is not proved is not built", (status, out, err))
        expect(not (room.top / "crates/cocoon/out/cocoon").exists(), "nothing is left of what was not proved")
        room.kit(**{"version-status": "3", "verdict": "1 passed, 0 failed\n"})
        status, out, err = room.run("x", folders=["kit"])
        expect(status == 2 and "version" in err and not room.calls(), "a kit that does not answer is found first", (status, out, err))
    room.kit()


def test_left_by_kit(room):
    with other_sources(room):
        left = room.build(b"#!/bin/sh\necho left; exit 2\n")
        expect(room.run() == (2, "left\n", ""), "what the kit left is run where no source is newer")
        left.with_name("cocoon.txt").unlink()
        os.utime(left, (1, 1))
        room.forget()
        expect_refused(room.compile(), "built from other sources", "what the kit left, and a newer source")


# ---- the gate


def test_compare(room):
    def told(status, words, where):
        ran = room.python("bench/ship.py", "compare")
        printed = ran.stdout + ran.stderr
        expect(ran.returncode == status and words in printed and printed.count("\n") == 1, where, printed)

    room.build((room.top / "dist" / "cocoon").read_bytes())
    told(0, "byte for byte", "the program just built is the one that is shipped")
    with room.changed("crates/cocoon/out/cocoon"):
        told(1, "differ first at byte", "another program is built of the same sources")
    with room.changed("dist/cocoon"):
        told(1, "not the program of its record", "another byte in the shipped program")
    with room.changed("crates/cocoon_num/src/lib.rt"):
        told(0, "of other sources", "newer sources")
        with room.changed("dist/cocoon"):
            told(1, "not the program of its record", "newer sources, and another byte in the shipped program")
    text = (room.top / "dist/cocoon.txt").read_bytes()
    room.write("dist/cocoon.txt", text.replace(KIT.encode(), b"an older kit"))
    with room.changed("crates/cocoon/out/cocoon"):
        told(0, "kit an older kit and not", "another kit")
    room.write("dist/cocoon.txt", text)
    room.forget_build()


def test_gate_without_python(room):
    (room.at / "alone").mkdir(exist_ok=True)
    for tool in ("rt", "mkdir", "chmod", "cat", "sleep"):
        (room.at / "alone" / tool).unlink(missing_ok=True)
        (room.at / "alone" / tool).symlink_to(room.at / "kit" / tool)
    for tool in ("dirname",):
        (room.at / "alone" / tool).unlink(missing_ok=True)
        (room.at / "alone" / tool).symlink_to(shutil.which(tool))
    status, _, err = room.run(path=room.top / ".ci" / "run", folders=["alone"])
    expect(status == 1 and "Python 3" in err, "a gate without Python fails and says what to install", (status, err))


TESTS = {name.removeprefix("test_"): call for name, call in list(globals().items()) if name.startswith("test_")}


def main(names):
    if not set(names) <= set(TESTS):
        sys.exit(__doc__ + "\n" + " ".join(TESTS))
    if not PROGRAM.is_file():
        sys.exit("ready: the program is not built: run `rt ci`")
    with tempfile.TemporaryDirectory(prefix="cocoon-ready-") as folder:
        os.chmod(folder, 0o755)
        room = Room(pathlib.Path(folder))
        for name in names or TESTS:
            TESTS[name](room)
    print("\n".join([*WRONG, f"ready: {len(WRONG)} wrong" if WRONG else "ready: all is as it should be"]))
    return 1 if WRONG else 0


if __name__ == "__main__":
    sys.exit(main(sys.argv[1:]))
