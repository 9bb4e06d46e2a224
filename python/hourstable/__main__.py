"""Where the command hourstable-service begins: it says what is missing, or runs."""

import sys

from hourstable import installed


def main(words: list[str] | None = None) -> int:
    """Runs the command, and returns its status, which is 2 if something that it needs is missing."""
    why = installed.lacking()
    if why is not None:
        print(f"hourstable-service: {why}", file=sys.stderr)
        return 2
    from hourstable import command

    return command.main(words)


if __name__ == "__main__":
    sys.exit(main())
