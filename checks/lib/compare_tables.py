"""Gives tables of cases to a program and compares what it prints, line by line.

usage: compare_tables.py PROGRAM FOLDER NAME..
FOLDER has for each NAME the files NAME.in, a command a line, and NAME.out, the line that is wanted for each.
"""
import pathlib
import subprocess
import sys

SECONDS = 600
SHOWN = 3


def answers(program, given):
    """Returns the lines that the program prints for the commands, and what went wrong with the run, if anything."""
    try:
        run = subprocess.run([program], input=given, capture_output=True, timeout=SECONDS)
    except (OSError, subprocess.SubprocessError) as fault:
        return [], f" ({fault})"
    lines = run.stdout.decode("utf-8", "replace").split("\n")
    if lines[-1] == "":
        lines.pop()
    return lines, "" if run.returncode == 0 else f" (status {run.returncode})"


def compare(program, folder, name):
    """Compares one table, shows the first lines that differ, and returns how many lines passed and how many failed."""
    given = (folder / f"{name}.in").read_bytes()
    commands = given.decode().splitlines()
    wanted = (folder / f"{name}.out").read_text().splitlines()
    printed, note = answers(program, given)
    passed = failed = 0
    for place, want in enumerate(wanted):
        have = printed[place] if place < len(printed) else "(nothing)"
        if have == want:
            passed += 1
            continue
        failed += 1
        if failed <= SHOWN:
            print(f"{name}:{place + 1}: {commands[place][:160]}")
            print(f"  wanted {want[:200]}")
            print(f"  got    {have[:200]}{note}")
    if len(printed) > len(wanted):
        failed += 1
        print(f"{name}: {len(printed) - len(wanted)} lines too many{note}")
    return passed, failed


def main(words):
    program, folder, *names = words
    counts = [compare(program, pathlib.Path(folder), name) for name in names]
    passed, failed = (sum(column) for column in zip(*counts))
    print(f"{passed} passed, {failed} failed")
    return 1 if failed else 0


if __name__ == "__main__":
    sys.exit(main(sys.argv[1:]))
