"""python3 -m topazfern is the command topaz."""
from .cli import run

run()
