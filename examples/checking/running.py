"""Runs the program, and counts which answers are as they must be."""
import subprocess

ONE_CUSTOMER = "examples/one-customer.toml"
HEAD = "run interfaces 1 sessions 1 pairs 0 skipped 0\npublish 0 edits 0 cells 0 items 0\n"

results = []


def judge(name, wanted, seen):
    """Counts whether both are the same, and shows where they are not."""
    results.append(seen == wanted)
    if seen != wanted:
        print(f"FAILED: {name}\n  wanted: {wanted!r}\n  seen:   {seen!r}")


def run(words, output="", before="true"):
    """The program with these words: exit status, standard output and standard error.

    Output is a redirection of the shell, as '>&-' for a standard output that is closed, and before is a command
    that the shell runs before it."""
    shell = ["sh", "-c", f'{before}; exec ./urpf "$@" {output}', "sh"]
    ended = subprocess.run(shell + list(words), stdin=subprocess.DEVNULL, capture_output=True)
    return ended.returncode, ended.stdout.decode(), ended.stderr.decode()
