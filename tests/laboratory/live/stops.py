"""Runs that are stopped, live: Ctrl-C, a hook that ends in mid-run, and an acceptance that goes on after it."""

import json
import pathlib
import signal
import subprocess
import tempfile
import time

from live import network, running

ROOT = pathlib.Path(__file__).resolve().parents[3]
PORTS = (2, 3, 4, 5)
# A hook that passes four commands on and then ends.
ENDING = "sed -u 5q | {0}/hooks/livecard {1}"


class Bench:
    """A right card in a namespace and the bench's calls in another."""

    def __init__(self, net, folder):
        self.folder, self.there = folder, net.namespace("bench")
        here = net.namespace("card")
        for port in PORTS:
            net.pair(here, f"c{port}", self.there, f"b{port}")
        self.card = running.Card(folder, here, {port: f"c{port}" for port in PORTS}, "--signals", "console", "--real-time")

    def call(self, word, *more, hook=None):
        hook = hook or f"{ROOT}/hooks/livecard {self.card.console_path}"
        return ["ip", "netns", "exec", self.there, str(ROOT / "nurrispane"), word, *more, "--map", *[f"{port}=b{port}" for port in PORTS],
                "--hook", hook, "--real-time"]

    def interrupted(self, call, after):
        """A call that gets Ctrl-C after so many seconds; its status and what it said."""
        process = subprocess.Popen(call, stdout=subprocess.PIPE, stderr=subprocess.PIPE, text=True)
        time.sleep(after)
        process.send_signal(signal.SIGINT)
        _, said = process.communicate(timeout=60)
        return process.returncode, said

    def judged(self, record):
        run = subprocess.run([str(ROOT / "nurrispane"), "wire", str(record)], capture_output=True, text=True)
        return run.returncode, run.stdout


def wrong():
    """What is not as it should be."""
    with network.Network("stops") as net, tempfile.TemporaryDirectory() as name:
        folder = pathlib.Path(name)
        bench = Bench(net, folder)
        with bench.card as card:
            card.console.close()
            yield from by_the_operator(bench)
            yield from by_the_hook(bench)
            yield from and_resumed(bench)


def by_the_operator(bench):
    record = bench.folder / "stopped"
    status, said = bench.interrupted(bench.call("play", str(ROOT / "sequences/wire/codes.words"), "-o", str(record)), 7)
    if status != 2 or "by the operator" not in said:
        yield f"stops: Ctrl-C: status {status}: {said}"
    status, told = bench.judged(record)
    if status != 2 or "nothing is wrong as far as it is judged" not in told or "the run was stopped: by the operator" not in told:
        yield f"stops: a record that was stopped: status {status}: {told}"


def by_the_hook(bench):
    record, hook = bench.folder / "hook-ended", bench.folder / "hook"
    hook.write_text("#!/bin/sh\n" + ENDING.format(ROOT, bench.card.console_path) + "\n")
    hook.chmod(0o755)
    call = bench.call("play", str(ROOT / "sequences/wire/silence.words"), "-o", str(record), hook=str(hook))
    run = subprocess.run(call, capture_output=True, text=True)
    if run.returncode != 2 or "the hook" not in run.stderr:
        yield f"stops: a hook that ends: status {run.returncode}: {run.stderr}"
    status, told = bench.judged(record)
    if status != 2 or "the run was stopped: the hook" not in told:
        yield f"stops: its record: status {status}: {told}"


def and_resumed(bench):
    report = bench.folder / "report"
    status, said = bench.interrupted(bench.call("accept", "--only", "codes", "burst", "-o", str(report)), 26)
    if status != 2 or not (report / "report.html").exists():
        yield f"stops: accept with Ctrl-C: status {status}: {said}"
    run = subprocess.run(bench.call("accept", "--resume", "--only", "codes", "burst", "-o", str(report)), capture_output=True, text=True)
    data = json.loads((report / "report.json").read_text())
    if run.returncode != 0 or data["verdict"] != "right" or "2 sequences, about 10 s" not in run.stderr:
        yield f"stops: accept --resume: status {run.returncode}: {run.stderr}"
