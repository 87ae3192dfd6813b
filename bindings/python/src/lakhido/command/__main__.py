"""`python3 -m lakhido.command` is the command."""
import sys

from . import main

sys.exit(main())
