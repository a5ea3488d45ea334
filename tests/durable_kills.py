"""examples/durable.c as three processes at the same time, each killed (SIGKILL) again and again at drawn moments:
`python3 tests/durable_kills.py PROGRAM [RUNS] [SEED]`, 10 runs and seed 1 where not said. Run by tests/durable.sh.

At the end of each run all requests are answered; what was shown twice under one number is the same; no process ended
with anything but 0 or its kill; answers and both clients' cells are those that cop.py works out from the `BR`s."""

import random
import subprocess
import sys
import tempfile
import threading
import time
from pathlib import Path

import cop

PARTIES = (("client", "1"), ("client", "2"), ("server",))


def run_killed(program, folder, party, rng, wrong, kills):
    """Eighty turns of one party, each killed unless it has ended before."""
    with open(folder / ("shown-" + party[-1]), "ab") as shown:
        for turn in range(80):
            process = subprocess.Popen([program, folder, *party], stdout=shown)
            time.sleep(rng.uniform(0, 0.0015))
            process.kill()
            status = process.wait()
            kills.append(status == -9)
            if status not in (0, -9):
                wrong.append(f"{party} ended with {status}")


def shown(folder, client):
    """What a client has shown, by number."""
    texts = {}
    for line in (folder / f"shown-{client}").read_text().splitlines():
        number, text = line.removeprefix(f"client {client}, ").split(": ")
        assert texts.setdefault(int(number), text) == text, line
    assert sorted(texts) == list(range(len(texts)))
    return [texts[number].split() for number in sorted(texts)]


def broadcasts(line):
    """The commits on a line from the server."""
    while line:
        length = 80 if line[:2] == b"BR" else 3 + 41 * line[2]
        if length == 80:
            yield cop.commit_of(line[:80])
        line = line[length:]


def check(program, folder):
    said = {client: shown(folder, client) for client in (1, 2)}
    cells = cop.Cells()
    for place, commit in enumerate(broadcasts((folder / "down-1").read_bytes()), 1):
        expected = ["aside", str(place)]
        if commit.status:
            answer, cells = cop.run(commit.entry, cells)
            expected = ["answer", str(place), str(answer)]
        assert expected in said[commit.author], expected
        assert all(["confirm", str(place), str(commit.status)] in said[client] for client in said), place
    words = [[words[0] for words in said[client]] for client in said]
    assert [w.count("invoked") + w.count("no") for w in words] == [6, 6], words
    assert [w.count("answer") + w.count("aside") for w in words] == [w.count("invoked") for w in words], words
    assert [w.count("confirm") for w in words] == [place, place], words
    for client in said:
        found = subprocess.check_output([program, folder, "cells", str(client)], text=True)
        pairs = [tuple(map(int, line.split())) for line in found.splitlines()]
        assert pairs == list(zip(cells.values, cells.temperatures)), (client, found)


def main(program, runs=10, seed=1):
    kills = []
    for run in range(int(runs)):
        with tempfile.TemporaryDirectory() as name:
            folder, wrong = Path(name), []
            subprocess.run([program, folder, "start"], check=True)
            parties = [
                threading.Thread(
                    target=run_killed,
                    args=(program, folder, party, random.Random(f"{seed} {run} {party}"), wrong, kills),
                )
                for party in PARTIES
            ]
            for party in parties:
                party.start()
            for party in parties:
                party.join()
            assert not wrong, wrong
            for party in PARTIES * 20:
                with open(folder / ("shown-" + party[-1]), "ab") as out:
                    subprocess.run([program, folder, *party], stdout=out, check=True)
            check(program, folder)
    print(f"{runs} runs of three processes at a time: {sum(kills)} of {len(kills)} turns killed, nothing lost")


if __name__ == "__main__":
    main(*sys.argv[1:])
