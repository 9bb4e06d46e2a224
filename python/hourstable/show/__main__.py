"""Where the command hourstable-show begins."""

import sys

from hourstable.show.command import main

if __name__ == "__main__":
    sys.exit(main())
