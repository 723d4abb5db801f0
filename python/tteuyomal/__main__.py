"""`python -m tteuyomal` is the command `tteuyomal`. Whatever fails before it begins ends with 2: 1 says that a sheet differs."""

import sys


def main() -> int:
    """Loads the command and runs it."""
    try:
        from .command import main as run
    except Exception:
        import traceback

        if sys.stderr is not None:
            traceback.print_exc()
        return 2
    return run()


if __name__ == "__main__":
    sys.exit(main())
