#!/usr/bin/env python3
"""Does what the README says, as a reader does: runs the commands of its blocks in their order, and compares what they print with what the
page shows. Then it does the same with the blocks of docs/CLIENTS.md that need curl alone, and with the word `clients` with those of all
clients that are installed, which may take minutes. Last it compares what `./ostore --help` and `--version` say.

    tools/check_readme.py [clients | release]

With the word `release` the program is a copy of `ostore`, `VERSION` and `release` alone, and no folder with the command `rt` is on the
path. The pages are then those of the commit that the release is of, where this tree has other sources and git knows that commit.

In a block that is fenced as `console`, a line behind `$ ` is a command, and the lines below it are what it prints: on standard output, and
for a command that ends with `&` on standard error too. A command below which nothing stands has to print nothing. A block that is fenced as
`sh` is run as one script, of which only the status counts. Each page has a shell and a fresh folder of its own, with the `./ostore` of
the repository and the README in it. Blocks fenced otherwise are only shown. That the sources have moved on since the release is passed over.

In place of `/tmp/` comes a fresh folder, and in place of `127.0.0.1:9000` an address with a free port, which a `serve` without `--listen`
gets too. Ids, terms and times are masked before they are compared. Behind a `kill` it waits until that process has ended. A block that
needs another client than curl is left out; with the word `clients` it is so, with a word on standard error, where that client isn't
installed. OSTORE may name another program, which is called itself then. Folders are in memory, where the system has a place for that, unless TMPDIR names another.
Its last line is 'N passed, M failed'; it ends with 1 where a command failed or printed something else, or where a page has none.
"""

import os
import pathlib
import re
import shutil
import signal
import socket
import subprocess
import sys
import tempfile
import time

sys.path[:0] = [str(pathlib.Path(__file__).resolve().parent), str(pathlib.Path(__file__).resolve().parent / "lib")]
import release
from program import prefer_memory, program, program_of

TOP = pathlib.Path(__file__).resolve().parent.parent
PAGES = ("README.md", "docs/CLIENTS.md")
ADDRESS = "127.0.0.1:9000"
# The clients that a machine may lack, each with a call that shows whether it is there.
CLIENTS = {"aws": ["aws", "--version"], "rclone": ["rclone", "version"], "s3cmd": ["s3cmd", "--version"], "s3fs": ["s3fs", "--version"], "python3": ["python3", "-c", "import boto3"]}
# The longest that a command may take, in seconds, and the longest until a command in the background has printed what the page shows.
LONGEST = 600
MASKS = (
    (re.compile(r"\b[0-9a-f]{8}(-[0-9a-f]{4}){3}-[0-9a-f]{12}\b"), "ID"),
    (re.compile(r'(\bterm"?:? ?)\d+'), r"\1TERM"),
    (re.compile(r"\b\w{3}, \d\d \w{3} \d{4} \d\d:\d\d:\d\d GMT\b"), "TIME"),
    (re.compile(r"\b\d{4}-\d\d-\d\dT[\d:.]+Z"), "TIME"),
)
MOVED_ON = re.compile(r"^ostore: this is release \S+, and the sources have moved on since; .*\n", re.M)


def text_of(page, is_release):
    """A page; for a release of other sources than this tree's as it was then, where git knows that."""
    if is_release:
        told = dict(line.split(": ", 1) for line in (TOP / "release/RELEASE").read_text().splitlines())
        if told["sources"] != release.sum_of(release.sources().encode()):
            then = subprocess.run(["git", "show", f"{told['commit']}:{page}"], cwd=TOP, capture_output=True, text=True)
            if then.returncode == 0:
                return then.stdout
    return (TOP / page).read_text()


def blocks_of(text):
    """The fenced blocks of a page that are run: each with its kind, the number of its first line, and its lines."""
    kind, start, lines = None, 0, []
    for number, line in enumerate(text.splitlines(), 1):
        if line.startswith("```"):
            if kind in ("console", "sh"):
                yield kind, start, lines
            kind, start, lines = (line[3:].strip() or "none", number + 1, []) if kind is None else (None, 0, [])
        else:
            lines.append(line)


def commands_of(kind, start, lines):
    """The commands of a block, each with the number of its line, and what it prints, or None where that isn't compared."""
    if kind == "sh":
        return [(start, "\n".join(["(set -e", *lines, ")"]), None)]
    commands = []
    for number, line in enumerate(lines, start):
        if line.startswith("$ "):
            commands.append((number, line[2:], []))
        elif commands:
            commands[-1][2].append(line)
        else:
            sys.exit(f"check_readme: line {number}: output of no command")
    return commands


def masked(text):
    text = MOVED_ON.sub("", text)
    for form, mask in MASKS:
        text = form.sub(mask, text)
    return text.splitlines()


def free_address():
    with socket.socket() as it:
        it.bind(("127.0.0.1", 0))
        return "127.0.0.1:%d" % it.getsockname()[1]


def put_program(here, is_release):
    """Puts `./ostore` into a folder: a copy of the release, or the repository's, or the program itself where OSTORE names another."""
    if is_release:
        for name in ("ostore", "VERSION"):
            shutil.copy(TOP / name, here)
        shutil.copytree(TOP / "release", here / "release", ignore=shutil.ignore_patterns("out"))
    else:
        (here / "ostore").symlink_to(TOP / "ostore" if program() == program_of(TOP) else program())


class Reader:
    """A shell in a fresh folder, in which the commands of one page are run."""

    def __init__(self, page, work, is_release):
        self.page, self.work = page, work
        self.address = free_address()
        here = work / "here"
        here.mkdir()
        put_program(here, is_release)
        (here / "README.md").write_text(text_of("README.md", is_release))
        unset = {it for it in os.environ if it.startswith(("AWS_", "RCLONE_"))}
        env = {name: value for name, value in os.environ.items() if name not in unset}
        env.update(HOME=str(work), no_proxy="127.0.0.1", NO_PROXY="127.0.0.1", LC_ALL="C", AWS_EC2_METADATA_DISABLED="true", AWS_PAGER="")
        os.mkfifo(work / "status")
        self.shell = subprocess.Popen(
            ["bash", "--noprofile", "--norc"], cwd=here, env=env, stdin=subprocess.PIPE, stdout=subprocess.DEVNULL, stderr=subprocess.DEVNULL,
            text=True, start_new_session=True,
        )
        self.status = os.open(work / "status", os.O_RDWR)
        self.count = 0

    def put_in(self, text):
        """The text with a fresh folder and a free address in place of those on the page."""
        return text.replace("/tmp/", f"{self.work}/").replace(ADDRESS, self.address)

    def run(self, command):
        """Runs a command, and answers its status, and what it printed on its streams."""
        self.count += 1
        out, err = self.work / f"{self.count}.out", self.work / f"{self.count}.err"
        text = self.put_in(command)
        if "--listen" not in text:
            text = re.sub(r"(\./ostore\b[^|;]*?) serve\b", rf"\1 --listen {self.address} serve", text)
        if text.endswith("&"):
            err = out
        behind = "\nwait $!" if text.startswith("kill ") else ""
        self.shell.stdin.write(f"{{ {text}\n}} >'{out}' 2>>'{err}'\nstatus=$?{behind}\necho $status >'{self.work}/status'\n")
        self.shell.stdin.flush()
        return self.status_within(LONGEST), out, err

    def status_within(self, seconds):
        end = time.monotonic() + seconds
        os.set_blocking(self.status, False)
        said = b""
        while time.monotonic() < end and self.shell.poll() is None:
            try:
                said += os.read(self.status, 100)
            except BlockingIOError:
                time.sleep(0.02)
            if said.endswith(b"\n"):
                return int(said)
        return None

    def printed(self, command, shown, out):
        """What a command printed; one in the background is waited for until it printed as many lines as are shown."""
        end = time.monotonic() + LONGEST
        while command.endswith("&") and time.monotonic() < end and len(masked(out.read_text())) < len(shown):
            time.sleep(0.05)
        if command.endswith("&"):
            time.sleep(0.2)
        return masked(out.read_text(errors="replace"))

    def does(self, number, command, shown):
        """Runs a command of the page; says what is wrong, and answers whether nothing is."""
        status, out, err = self.run(command)
        where = f"check_readme: {self.page}, line {number}: {command.splitlines()[0]}"
        if status != 0:
            words = (out.read_text(errors="replace") + err.read_text(errors="replace")).strip()
            print(f"{where}: status {status}: {words[-400:]}", file=sys.stderr)
            return False
        if shown is None:
            return True
        printed, wanted = self.printed(command, shown, out), masked(self.put_in("\n".join(shown)))
        if printed != wanted:
            print(f"{where}: it printed\n" + "\n".join(printed)[:800] + "\n  and the page shows\n" + "\n".join(wanted), file=sys.stderr)
        return printed == wanted

    def end(self):
        """Ends the shell and all that it started, which are a session of their own."""
        os.close(self.status)
        try:
            os.killpg(self.shell.pid, signal.SIGKILL)
        except ProcessLookupError:
            pass
        self.shell.wait()


def client_of(lines):
    """The client that these lines call beside curl, if there is one."""
    return next((it for it in CLIENTS if any(re.match(rf"(\$ )?{it} ", line) for line in lines)), None)


def is_installed(client):
    try:
        return subprocess.run(CLIENTS[client], capture_output=True).returncode == 0
    except FileNotFoundError:
        return False


def check(page, work, word):
    """How many commands of a page passed, and how many failed. Behind one that failed none is run."""
    reader, passed = Reader(page, work, word == "release"), 0
    try:
        for kind, start, lines in blocks_of(text_of(page, word == "release")):
            client = client_of(lines)
            if client and word != "clients":
                continue
            if client and not is_installed(client):
                print(f"check_readme: {page}, line {start}: {client} isn't installed, and its block was left out", file=sys.stderr)
                continue
            for number, command, shown in commands_of(kind, start, lines):
                if not reader.does(number, command, shown):
                    return passed, 1
                passed += 1
    finally:
        reader.end()
    if passed == 0:
        print(f"check_readme: {page} has no command", file=sys.stderr)
        return 0, 1
    return passed, 0


def help_of():
    """What `./ostore --help` has to say: the program's usage as docs/OPERATING.md shows it, and the words of `./ostore` by the head of that file."""
    usage = re.search(r"^    usage: ostore.*?(?=^\S)", (TOP / "docs/OPERATING.md").read_text(), re.M | re.S)[0].rstrip("\n")
    words = re.findall(r"^#   \./ostore (--\w+) +(.*)$", (TOP / "ostore").read_text(), re.M)
    lines = [line.removeprefix("    ") for line in usage.split("\n")]
    return "\n".join([*lines, "", "words of ./ostore itself, alone:", *(f"  {word:<18} {what}" for word, what in words), ""])


def versions_of(here):
    """What `./ostore --version` may say in a folder, as a pattern."""
    release = dict(line.split(": ", 1) for line in (TOP / "release/RELEASE").read_text().splitlines())
    told = rf"release {re.escape(release['version'])} for x86-64(-v3)?, of commit {release['commit']}"
    more = "" if (here / "release").is_dir() else "|built of this tree|" + told + "; the sources have moved on since"
    return rf"ostore {re.escape((TOP / 'VERSION').read_text().strip())} \(({told}{more})\)\n"


def check_words(work, is_release):
    """How many of the words that `./ostore` itself knows say what they have to, and how many don't."""
    put_program(work, is_release)
    if (work / "ostore").resolve() == pathlib.Path(program()).resolve() and not is_release:
        print("check_readme: --help and --version were left out, since OSTORE names another program", file=sys.stderr)
        return 0, 0
    passed = 0
    for word, wanted in (("--help", re.escape(help_of())), ("--version", versions_of(work))):
        ran = subprocess.run(["./ostore", word], cwd=work, stdin=subprocess.DEVNULL, capture_output=True, text=True)
        is_so = ran.returncode == 0 and re.fullmatch(wanted, ran.stdout) and not ran.stderr
        passed += bool(is_so)
        if not is_so:
            print(f"check_readme: ./ostore {word}: status {ran.returncode}, and it says\n{ran.stdout}{ran.stderr}", file=sys.stderr)
    return passed, 2 - passed


def leave_kit():
    """Takes the kit off the path."""
    folders = os.environ["PATH"].split(os.pathsep)
    os.environ["PATH"] = os.pathsep.join(it for it in folders if not os.access(f"{it}/rt", os.X_OK))


def main():
    passed = failed = 0
    if sys.argv[1:] not in ([], ["clients"], ["release"]):
        sys.exit("usage: tools/check_readme.py [clients | release]")
    word = "".join(sys.argv[1:])
    prefer_memory()
    if word == "release":
        leave_kit()
    for page in PAGES:
        with tempfile.TemporaryDirectory() as work:
            good, bad = check(page, pathlib.Path(work).resolve(), word)
        passed, failed = passed + good, failed + bad
    with tempfile.TemporaryDirectory() as work:
        good, bad = check_words(pathlib.Path(work).resolve(), word == "release")
    passed, failed = passed + good, failed + bad
    print(f"{passed} passed, {failed} failed")
    return 1 if failed else 0


if __name__ == "__main__":
    sys.exit(main())
