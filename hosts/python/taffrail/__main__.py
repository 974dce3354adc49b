"""``python3 -m taffrail``."""

from .cli import run

if __name__ == "__main__":
    run()
