#!/usr/bin/env python3
"""Compares the rows of `tokentree measure --csv` with the same runs, replayed event by event.

The events of each run are those of `schedule --give-back 1`. `simulate --layers` says after each of them how many sweeps
there were and which layers stand, and whether the network serves follows from the state that it prints. A column must be one
more than the sweeps at the last moment at which its layer did not stand.

usage: bench/settling.py PROGRAM [RUNS]
"""
import subprocess
import sys
import tempfile
from pathlib import Path

# Kind and size of each network, what comes after them, and the distances and parents of its nodes.
NETWORKS = [
    (["line", "2"], ["0 none", "1 0"]),
    (["line", "3", "--capacity", "2"], ["0 none", "1 0", "2 1"]),
    (["ring", "4"], ["0 none", "1 0", "2 1", "1 0"]),
]


def answer(program, *words, text=None):
    return subprocess.run([program, *words], input=text, capture_output=True, text=True, check=True).stdout


def stands(lines, truth):
    """Which of the four columns stand, and the sweeps, by what `simulate --layers` printed."""
    nodes = [line.split() for line in lines if line.startswith("node ")]
    word = {line.split()[0]: line.split() for line in lines if not line.startswith(("node ", "link "))}
    links = word["links"]
    serves = (
        [f"{node[3]} {node[5]}" for node in nodes] == truth
        and int(word["privileged"][1]) <= 1
        and int(word["privileged"][3]) <= 1
    )
    return [links[1] == links[3], word["tree"][1] == "yes", word["ring"][1] == "yes", serves], int(word["sweeps"][1])


def main():
    program = Path(sys.argv[1]).resolve()
    runs = int(sys.argv[2]) if len(sys.argv) > 2 else 5
    unlike = 0
    with tempfile.TemporaryDirectory() as folder:
        file = Path(folder) / "network.toml"
        for words, truth in NETWORKS:
            file.write_text(answer(program, "network", *words))
            rows = answer(program, "measure", file, "--runs", str(runs), "--csv").splitlines()[1:]
            for row in rows:
                seed, count, *columns = map(int, row.split(","))
                events = answer(program, "schedule", file, "--scramble", str(seed), "--rounds", "1000", "--give-back", "1").splitlines()
                harms = sum(line.startswith("harm") for line in events)
                found = [0, 0, 0, 0]
                for done in range(harms, harms + count + 1):
                    text = "".join(line + "\n" for line in events[:done])
                    layers, sweeps = stands(answer(program, "simulate", file, "-", "--layers", text=text).splitlines(), truth)
                    found = [now if stand else sweeps + 1 for stand, now in zip(layers, found)]
                if found != columns:
                    unlike += 1
                    print(f"{words} seed {seed}: replayed {found}, the row says {columns}")
            print(f"{' '.join(words)}: {len(rows)} rows")
    print(f"unlike {unlike}")
    return 1 if unlike else 0


if __name__ == "__main__":
    sys.exit(main())
