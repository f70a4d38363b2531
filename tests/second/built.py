"""What the toolchain built: the paths of tests/paths."""
import re
import subprocess
from pathlib import Path

ROOT = Path(__file__).resolve().parent.parent.parent
PATHS = dict(re.findall(r"^([A-Z]+)=(\S+)$", (ROOT / "tests" / "paths").read_text(), re.M))


def built(name):
    """The path of a program or an archive."""
    return ROOT / PATHS[name]


def command(name):
    """What builds it, in words."""
    path = PATHS[name]
    return f"(cd {path.split('/out/')[0]} && rt {'lib' if path.endswith('.a') else 'run </dev/null'})"


def build(name):
    """Has rt prove and build an archive. Gives what it said where that failed, and else nothing."""
    folder = ROOT / PATHS[name].split("/out/")[0]
    try:
        done = subprocess.run(["rt", "lib"], cwd=folder, stdout=subprocess.PIPE, stderr=subprocess.STDOUT)
    except FileNotFoundError:
        return "rt, the Rattle toolchain, is not on the PATH\n"
    return done.stdout.decode(errors="replace") or "rt said nothing\n" if done.returncode else ""
