#!/usr/bin/env python3
"""Writes the list that the program `replay` runs, and what it must print: replay_cases.py FOLDER SEEDS STEPS TIMES [PROFILE:SEED:FRAMES ..]

Of the judge's runs (judge.py) of STEPS frames from a fresh state with the seeds 1 to SEEDS in each of its six profiles, it takes as much as it
needs for each of the listed situations (`judge reach`) to be reached in TIMES runs, or in as many as there are: again and again the frames that
reach the most of what is still wanted for their bytes, from a run's start or on from where it was cut. Of the runs that are named it then takes so many
frames at the least. FOLDER/stdin gets the frames with the judge's answers (crates/replay/src/main.rt says in what form), FOLDER/stdout a line for each run.

crates/replay has what these words give. The runs named tell slips in the engine that the others let pass:
100 500 2 limits:62:149 mixed:98:37 passes:13:15 passes:32:47 damage:7:67 mixed:27:12 queues:36:68 limits:85:4
"""
import subprocess
import judge, usage

START = 2000    # what another run costs, beside its bytes: few long runs tell more than many short ones

class Run:
    """The frames of one seed and profile, the judge's answers, and the situations that they reach."""
    def __init__(self, profile, seed, steps):
        self.name = "%s %s" % (profile, seed)
        self.frames = judge.judge(["gen", "--seed", seed, "--steps", str(steps), "--profile", profile]).split(b"\n")[:-1]
        self.answers = judge.answers(self.frames)
        self.taken = 0                 # how many frames of it are in the list
        self.first = []                # (frame, situation), in the frames' order
        self.bytes = [0]               # how much of the list the first n frames take
        for frame, answer in zip(self.frames, self.answers):
            self.bytes.append(self.bytes[-1] + len(frame) + 2 + sum(len(line) + 1 for line in answer))

    def best(self, wanted):
        """The most wanted situations for a byte that more frames of the run reach, and up to which frame."""
        found, best = 0, (0, 0)
        cost = START if self.taken == 0 else -self.bytes[self.taken]
        for frame, situation in self.first:
            if self.taken < frame and wanted[situation]:
                found += 1
                best = max(best, (found / (cost + self.bytes[frame]), frame))
        return best

    def take(self, frames, wanted):
        """Takes the run up to a frame, and what that reaches off the wanted situations."""
        for frame, situation in self.first:
            if self.taken < frame <= frames and wanted[situation]:
                wanted[situation] -= 1
        self.taken = frames

def reach(seeds, steps):
    """The runs, and the situations that none of them reaches."""
    out = subprocess.run([judge.JUDGE, "reach", "--seed", "1..%d" % seeds, "--steps", str(steps)], stdout=subprocess.PIPE, text=True).stdout
    runs, missed = {}, []
    for line in out.splitlines():
        if line.startswith("- "):
            missed.append(line[2:])
            continue
        profile, seed, frame, situation = line.split(" ", 3)
        if (profile, seed) not in runs:
            runs[profile, seed] = Run(profile, seed, steps)
        runs[profile, seed].first.append((int(frame), situation))
    for run in runs.values():
        run.first.sort()
    return list(runs.values()), missed

def choose(runs, times, named):
    """Takes frames of the runs."""
    wanted = {}
    for run in runs:
        for _, situation in run.first:
            wanted[situation] = min(times, wanted.get(situation, 0) + 1)
    while any(wanted.values()):
        run = max(runs, key=lambda r: r.best(wanted))
        run.take(run.best(wanted)[1], wanted)
    for run in runs:
        run.taken = max(run.taken, named.get(run.name, 0))
    return [run for run in runs if run.taken]

def run_named(word):
    """A run's name, and how many of its frames are wanted at the least."""
    profile, seed, frames = word.split(":")
    return profile + " " + seed, int(frames)

def main():
    folder, seeds, steps, times, *more = usage.words(__doc__, usage.folder, int, int, int, rest=run_named)
    named = dict(more)
    runs, missed = reach(seeds, steps)
    chosen = choose(runs, times, named)
    total = sum(run.taken for run in chosen)
    with open(folder + "/stdin", "wb") as out:
        for run in chosen:
            out.write(b"#" + run.name.encode() + b"\n")
            for frame, answer in list(zip(run.frames, run.answers))[:run.taken]:
                out.write(b">" + frame + b"\n" + b"".join(line + b"\n" for line in answer))
        size = out.tell()
    with open(folder + "/stdout", "w") as out:
        for run in chosen:
            out.write("%s: %d frames, 0 differences\n" % (run.name, run.taken))
        out.write("all: %d runs, %d frames, 0 differences\n" % (len(chosen), total))
    situations = {s for run in runs for _, s in run.first}
    print(len(chosen), "runs,", total, "frames,", size, "bytes;", len(situations), "situations; never reached:", missed or "none")
    for profile in ["mixed", "queues", "passes", "merges", "limits", "damage"]:
        print(profile, sum(run.taken for run in chosen if run.name.startswith(profile)), "frames")

main()
