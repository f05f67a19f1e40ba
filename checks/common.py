"""What the scripts of this folder share: files of the repository, commands, and copies of crates."""

import contextlib, os, pathlib, shutil, subprocess, sys, tempfile

TOP = os.path.dirname(os.path.dirname(os.path.abspath(__file__)))


def text_of(path):
    """The text of a file, whose path may be relative to the top of the repository."""
    return pathlib.Path(TOP, path).read_text(encoding="utf-8")


def write(path, text):
    pathlib.Path(path).write_text(text, encoding="utf-8")


def printed(*command, **more):
    """What a command prints, and its status."""
    ran = subprocess.run(command, stdout=subprocess.PIPE, stderr=subprocess.STDOUT, text=True, **more)
    return ran.stdout, ran.returncode


def output_of(*command, **more):
    """What a command prints. It has to succeed."""
    out, status = printed(*command, **more)
    if status:
        sys.exit(f"{out[-4000:]}\n{' '.join(command)}: status {status}")
    return out


@contextlib.contextmanager
def copied(*crates, proofs=True):
    """A copy of these crates, which must have those that they use, and by default what earlier checks kept in their
    folders `out`. It is deleted where the `with` block ends."""
    without = None if proofs else shutil.ignore_patterns("out")
    with tempfile.TemporaryDirectory(prefix="checks-") as room:
        lines = text_of("crates.txt").splitlines(keepends=True)
        write(f"{room}/crates.txt", "".join(it for it in lines if it.split(":")[0] in crates))
        shutil.copy(f"{TOP}/HANDLES", room)
        for name in crates:
            shutil.copytree(f"{TOP}/crates/{name}", f"{room}/crates/{name}", symlinks=True, ignore=without)
        yield room


def edited(crate, edit):
    """The texts that an edit makes of files of a crate, by their paths."""
    texts = {}
    for line in text_of(edit).split("\n"):
        word, _, text = line.partition(": ")
        if word == "file":
            path = f"{crate}/{text}"
            texts.setdefault(path, text_of(path))
        elif word == "old":
            old = text
        elif word == "new":
            assert texts[path].count(old) == 1, f"{edit}: {old!r} isn't in {path} once"
            texts[path] = texts[path].replace(old, text)
    return texts
