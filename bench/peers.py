"""The peers: how each is built, found and run."""
import os
import shutil
import subprocess
from pathlib import Path

BENCH = Path(__file__).resolve().parent
ROOT = BENCH.parent
PROGRAM = ROOT / "crates" / "bench" / "out" / "bench"
CRATE = BENCH / "crate" / "out" / "release" / "crate_peer"
PACKAGE = "librust-itertools-dev"
TARGET = "-C target-cpu=x86-64-v2"  # what `rt run` compiles for


def answer(*command, **options):
    """What a command prints, or nothing where it cannot be run or fails."""
    try:
        done = subprocess.run(command, capture_output=True, text=True, check=True, **options)
    except (OSError, subprocess.CalledProcessError):
        return ""
    return done.stdout


def build_program():
    """Proves and builds `bench`, this library and the kit's iterators in one program."""
    subprocess.run(["rt", "run"], cwd=PROGRAM.parent.parent, stdin=subprocess.DEVNULL,
                   stdout=subprocess.DEVNULL, check=True)


def build_crate():
    """Builds the peer in Rust from Debian's packages, without a network."""
    files = answer("dpkg", "-L", PACKAGE).split()
    registry = next((name for name in files if name.endswith("/registry")), None)
    if registry is None:
        raise SystemExit(f"bench/run: the crate is wanted: apt-get install {PACKAGE}")
    settings = ['source.crates-io.replace-with="debian"', f'source.debian.directory="{registry}"']
    command = ["cargo", "build", "--quiet", "--release", "--offline", "--locked"]
    for setting in settings:
        command += ["--config", setting]
    subprocess.run([*command, "--target-dir", "out"], cwd=BENCH / "crate", check=True,
                   env={**os.environ, "RUSTFLAGS": TARGET})


def find_cpython():
    """A CPython 3.12: that of PYTHON312, that on the path, or one of pyenv's."""
    of_pyenv = sorted(Path.home().glob(".pyenv/versions/3.12*/bin/python3.12"))
    for name in (os.environ.get("PYTHON312", ""), "python3.12", *map(str, of_pyenv)):
        if name and answer(name, "--version").startswith("Python 3.12."):
            return name
    return None


def compiled():
    """The commands of the compiled peers."""
    return [[str(CRATE)], [str(PROGRAM), "--measure"]]


def interpreted():
    """The commands of the Pythons that are here, and a line for each that is not."""
    found, missing = [], []
    for title, python in (("CPython 3.12", find_cpython()), ("PyPy", shutil.which("pypy3"))):
        if python is None:
            missing.append(f"{title} was not here, so that its column is empty.")
        else:
            found.append([python, str(BENCH / "peer.py")])
    return found, missing


def versions():
    """What was measured, in words, one line for each peer."""
    package = answer("dpkg-query", "-W", "-f", "${Version}", PACKAGE)
    lines = [f"kit: {answer('rt', 'version').strip()}",
             f"crate: itertools, {PACKAGE} {package}, {answer('rustc', '--version').strip()}"]
    found, _ = interpreted()
    for python, _ in found:
        lines.append(f"Python: {' '.join(answer(python, '--version').split())}")
    return lines
