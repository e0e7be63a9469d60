"""Cooperatives that ./powerbook-sample makes, each once for all tests of a script. The gate has built the program."""
import atexit
import functools
import re
import shutil
import subprocess
import tempfile

from program import PATIENCE, TOP, content

MAKER = f"{TOP}/crates/pw_sample/out/pw_sample"
METERS, DAYS, SEED = 20, 7, 1


@functools.cache
def room():
    made = tempfile.mkdtemp()
    atexit.register(shutil.rmtree, made, ignore_errors=True)
    return made


class Cooperative:
    """A made cooperative: its office file, its accounts, its uploads as kinds, files and meters, the list of them, and
    its figures."""

    def __init__(self, days=DAYS, meters=METERS):
        self.room = f"{room()}/{meters}meters{days}days"
        words = ["--meters", str(meters), "--days", str(days), "--seed", str(SEED), self.room]
        subprocess.run([MAKER, *words], timeout=PATIENCE, check=True)
        self.office, self.list = f"{self.room}/office.toml", f"{self.room}/loads"
        self.accounts = content(f"{self.room}/accounts").decode().split()
        lines = content(self.list).decode().splitlines()
        self.loads = [(kind, f"{self.room}/{file}", *meter) for kind, file, *meter in map(str.split, lines)]
        lines = content(f"{self.room}/figures.txt").decode().splitlines()
        self.figures = {name: int(value) for name, value in map(str.split, lines)}

    @functools.cached_property
    def own_uploads(self):
        """Of each meter some of what it sent, as a path and a body: the first readouts, or up to 64 telegrams."""
        made, frames = {}, {}
        for kind, file, *meter in self.loads:
            if kind == "readouts":
                made.setdefault(meter[0], (f"/meters/{meter[0]}/readouts", content(file)))
            elif kind == "telegrams":
                for frame in re.findall(rb"/.*?\r\n![0-9A-F]{4}\r\n", content(file), re.DOTALL):
                    meter = re.search(rb"0-0:96\.1\.1\((.*?)\)", frame)[1].decode()
                    frames.setdefault(meter, []).append(frame)
        made.update((meter, ("/telegrams", b"".join(it[:64]))) for meter, it in frames.items())
        return made

    @functools.cached_property
    def marked(self):
        """The first meter that sends telegrams."""
        return next(meter for meter, (path, _) in self.own_uploads.items() if path == "/telegrams")


cooperative = functools.cache(Cooperative)
