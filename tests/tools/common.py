"""What the tests of this folder share: where things stand, and the command run as a user runs it."""
import os
import subprocess
import sys
from pathlib import Path

HERE = Path(__file__).resolve().parent
ROOT = HERE.parents[1]
TOPAZ = ROOT / "topaz"
EXAMPLES = ROOT / "examples"
sys.path[:0] = [str(ROOT / "python"), str(HERE)]


def topaz(*words, input=None, cwd=None, **more):
    """The command: its status, standard output and standard error."""
    environment = {**os.environ, **more.pop("env", {})}
    done = subprocess.run([sys.executable, str(TOPAZ), *map(str, words)], input=input, stdout=more.pop("stdout", subprocess.PIPE), stderr=subprocess.PIPE,
                          cwd=cwd, timeout=60, env=environment, **more)
    return done.returncode, (done.stdout or b"").decode("utf-8", "surrogateescape"), done.stderr.decode("utf-8", "surrogateescape")
