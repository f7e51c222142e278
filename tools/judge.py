"""The judge, the program that runs the published Rust (compare/README.md), as the scripts beside this file call it."""
import os, subprocess

JUDGE = os.environ.get("JUDGE", "target/compare/judge")

def judge(args, lines=()):
    """What it wrote on standard output, given lines as bytes. It must succeed."""
    return subprocess.run([JUDGE] + args, input=b"".join(line + b"\n" for line in lines), stdout=subprocess.PIPE, check=True).stdout

def answers(lines, args=("run",)):
    """For each line the lines of its answer: the answer's own, and one for each effect."""
    out = judge(list(args), lines).split(b"\n")
    at, found = 0, []
    for _ in lines:
        end = at + 1 + int(out[at][2:6], 16)
        found.append(out[at:end])
        at = end
    return found
