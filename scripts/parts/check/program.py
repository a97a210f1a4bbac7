"""runs the program on each folder of cases/ and on the sessions of README and docs, and compares what comes with what they say

usage: scripts/check program [PROGRAM [CASE..]]     crates/ttp/out/ttp, which ./build makes, and all cases and sessions, if none is named

The files of a case, of which all but the first may be missing:

  args            one word a line. An empty line parts runs, and each has to come to the same
  stdin           what is read: nothing, if it is missing
  stdout, stderr  what has to be written: nothing, if it is missing
  status          the exit status: 0, if it is missing

In stdin, stdout and stderr a line `@FILE` stands for what is in that file. In the last two a line `...` stands for any lines, and
`~ PATTERN` for a line of this pattern. All runs and all paths are in a copy of the repository. A session is an `sh` block of a page
with the block behind it, where the text between says what it prints; in that block such lines stand for the same. The last line is 'N
passed, M failed'; the status is 1 where a run failed."""
import concurrent.futures
import os
import pathlib
import re
import shlex
import shutil
import subprocess
import tempfile

from .. import TOP, programs

LINES = r"((?:(?!```).*\n)*)"
SESSION = re.compile(f"^```sh\n{LINES}```\n{LINES}```\n{LINES}```$", re.M)


def content(file):
    """What is in a file, with what is in those that its lines `@FILE` name."""
    return re.sub(rb"(?m)^@(.+)\n", lambda named: content(pathlib.Path(named[1].decode())), file.read_bytes()) if file.exists() else b""


def pattern(text):
    """What matches a text of which some lines stand for others."""
    found = b""
    for line in text.splitlines(keepends=True):
        if line == b"...\n":
            found += rb"(?:.*\n)*?"
        else:
            found += b"(?:" + line[2:-1] + rb")\n" if line.startswith(b"~ ") else re.escape(line)
    return found


def ended(name, command, given, wanted):
    """Whether the command comes to this status, output and error, which are patterns."""
    ran = subprocess.run(command, input=given, capture_output=True, timeout=600, check=False)
    if ran.returncode == wanted[0] and re.fullmatch(wanted[1], ran.stdout) and re.fullmatch(wanted[2], ran.stderr):
        return True
    said = (stream[:2000].decode(errors="replace") for stream in (ran.stdout, ran.stderr))
    print(f"check program: {name}: {command[1:]}: status {ran.returncode}", *said, sep="\n")
    return False


def case_runs(folder, program):
    wanted = int(content(folder / "status") or 0), pattern(content(folder / "stdout")), pattern(content(folder / "stderr"))
    for words in content(folder / "args").split(b"\n\n"):
        yield folder.name, [program, *filter(None, words.split(b"\n"))], content(folder / "stdin"), wanted


def session_runs(page, program):
    for commands, between, printed in SESSION.findall(page.read_text(encoding="utf-8")):
        if "prints" in between:
            command = ["bash", "-c", commands.replace("./ttp", shlex.quote(program))]
            yield page.name, command, b"", (0, pattern(printed.encode()), b"")


def main(*words):
    program, names = programs.program(words), words[1:]
    with tempfile.TemporaryDirectory() as folder, concurrent.futures.ThreadPoolExecutor(os.cpu_count()) as pool:
        copy = f"{folder}/copy"
        shutil.copytree(TOP, copy, ignore=shutil.ignore_patterns(".git", "out", "src", "specs", "proofs", "must-fail"))
        os.chdir(copy)
        cases = [case for case in sorted(pathlib.Path("cases").iterdir()) if not names or case.name in names]
        pages = [] if names else [pathlib.Path("README.md"), *sorted(pathlib.Path("docs").glob("*.md"))]
        runs = [run for case in cases for run in case_runs(case, program)]
        runs += [run for page in pages for run in session_runs(page, program)]
        passed = sum(pool.map(lambda run: ended(*run), runs))
    print(f"{passed} passed, {len(runs) - passed} failed")
    return passed < len(runs) or not runs
