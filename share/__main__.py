"""`python3 -m share` is bin/note."""
import sys

from share.cli.main import main

if __name__ == "__main__":
    sys.exit(main())
