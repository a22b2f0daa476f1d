"""Runs kdbsim on many lists of words: by the proved program, or all at once unproved by `rt try` where it isn't built."""
import os
import re
import subprocess
import sys
import tempfile

TOP = os.path.dirname(os.path.dirname(os.path.realpath(__file__)))
PROGRAM = f"{TOP}/crates/kdbsim/out/kdbsim"
SECONDS = "300"  # for one case that rt try runs: a million steps take it a minute or two


def run_all(cases):
    """The exit status and the output of each case, which is a folder and the words that kdbsim is given there."""
    if os.access(PROGRAM, os.X_OK):
        return [run_proved(*case) for case in cases]
    print("not proved: the proved program isn't built, so rt try runs these", file=sys.stderr, flush=True)
    return run_unproved(cases)


def run_proved(folder, words):
    ran = subprocess.run([PROGRAM, *words], cwd=folder, stdin=subprocess.DEVNULL, stdout=subprocess.PIPE)
    return ran.returncode, ran.stdout


def run_unproved(cases):
    """`rt try --cases` builds once, takes the words of case N from the file N.args, and prints each output under `== N`. A
    case that it doesn't end within its time has no answer."""
    with tempfile.TemporaryDirectory() as room:
        for at, (folder, words) in enumerate(cases):
            open(f"{room}/{at:04}", "w").close()
            with open(f"{room}/{at:04}.args", "w") as args:
                args.writelines(f"{absolute(folder, word)}\n" for word in words)
        ran = subprocess.run(["rt", "try", "--seconds", SECONDS, "--cases", room], cwd=f"{TOP}/crates/kdbsim", stdin=subprocess.DEVNULL,
                             stdout=subprocess.PIPE, stderr=subprocess.STDOUT)
    found = {}
    for it in re.finditer(rb"^== (\d{4})\n(.*?)^case=\1 run=(\S+) status=(\d+) ", ran.stdout, re.M | re.S):
        found[int(it[1])] = int(it[4]), it[2]
    if not found:
        sys.exit(f"rt try gave no answer; it said:\n{ran.stdout.decode(errors='replace')[-2000:]}")
    return [found.get(at, ("no answer", None)) for at in range(len(cases))]


def absolute(folder, word):
    path = os.path.join(folder, word)
    return path if os.path.exists(path) and not word.startswith("-") else word
