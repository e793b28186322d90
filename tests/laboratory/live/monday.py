"""The guide's Monday, word for word: the commands of docs/ACCEPTANCE.md run in a fresh unpacking, on interfaces of the names that it has,
with a console that stands in for `ssh`; and the report in a browser."""

import os
import pathlib
import re
import shutil
import subprocess
import time

from live import network, running

ROOT = pathlib.Path(__file__).resolve().parents[3]
PAGE = ROOT / "docs" / "ACCEPTANCE.md"
VENDOR = pathlib.Path(__file__).resolve().parent / "vendor-console"
# The bench's interfaces of the guide, by port.
INTERFACES = {2: "eth4", 3: "eth3", 4: "eth1", 5: "eth2"}
LONGEST = 600
BROWSERS = ("chromium", "chromium-browser", "google-chrome")


def commands():
    """The lines of the section that stand in its block."""
    section = PAGE.read_text().split("\n## Monday\n")[1].split("\n## ")[0]
    return re.findall(r"^    (\S.*)$", section, re.M)


def unpacked(folder):
    """An archive of what is stored here, and the programs that are built already."""
    archive = folder / "nurrispane.tar.gz"
    with open(archive, "wb") as file:
        names = subprocess.run(["git", "ls-files", "-z"], cwd=ROOT, capture_output=True, check=True).stdout
        subprocess.run(["tar", "-cz", "--null", "-T", "-", "--transform", "s,^,nurrispane/,"], cwd=ROOT, input=names, stdout=file, check=True)
    return archive


def give_programs(folder):
    """The built programs, no older than their sources: what a laboratory has after the first call."""
    place = folder / "nurrispane" / "target" / "bin"
    place.mkdir(parents=True)
    for path in (ROOT / "target" / "bin").iterdir():
        shutil.copy(path, place / path.name)
        os.utime(place / path.name, (time.time() + 60,) * 2)


def followed(folder, program):
    """Does what the section says; the exit status of its last `accept`, what was said, and how long it took."""
    with network.Network("monday") as net:
        here, there = net.namespace("card"), net.namespace("bench")
        for port, name in INTERFACES.items():
            net.pair(here, f"c{port}", there, name)
        with running.Card(folder, here, {port: f"c{port}" for port in INTERFACES}, "--real-time", program=program) as card:
            card.console.close()
            tools = folder / "tools"
            tools.mkdir()
            (tools / "ssh").symlink_to(VENDOR)
            environment = {**os.environ, "PATH": f"{tools}:{os.environ['PATH']}", "CARD_CONSOLE": str(card.console_path), "BROWSER": "true"}
            unpacked(folder)
            begun, said, status = time.monotonic(), "", None
            lines = commands()
            for place, line in enumerate(lines):
                where = folder if place == 0 else folder / "nurrispane"
                run = subprocess.run(["ip", "netns", "exec", there, "bash", "-c", line], cwd=where, env=environment, capture_output=True, text=True)
                said += f"$ {line}\n{run.stdout}{run.stderr}[{run.returncode}]\n"
                status = run.returncode if "accept" in line else status
                if place == 0:
                    give_programs(folder)
            return status, said, time.monotonic() - begun, folder / "nurrispane" / "REPORT"


def looked_at(report):
    """What a browser makes of the page: its text, and a picture beside it; None where there is no browser."""
    browser = next(filter(None, map(shutil.which, BROWSERS)), None)
    if browser is None:
        return None
    call = [browser, "--headless", "--no-sandbox", "--disable-gpu", "--window-size=1000,1400"]
    page = (report / "report.html").absolute().as_uri()
    subprocess.run([*call, f"--screenshot={report / 'report.png'}", page], capture_output=True, timeout=120)
    subprocess.run([*call, "--no-pdf-header-footer", f"--print-to-pdf={report / 'report.pdf'}", page], capture_output=True, timeout=120)
    return subprocess.run([*call, "--dump-dom", page], capture_output=True, text=True, timeout=120).stdout
