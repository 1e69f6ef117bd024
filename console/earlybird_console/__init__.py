"""A page over an index program: docs/CONSOLE.md says what it does and promises."""
import os
import sys

# what it shares with the front for a terminal
sys.path.insert(1, os.path.join(os.path.dirname(os.path.dirname(os.path.dirname(os.path.abspath(__file__)))), "logs"))
# the web server, which other programs of this repository stand on, too
sys.path.append(os.path.join(os.path.dirname(os.path.dirname(os.path.dirname(os.path.realpath(__file__)))), "web"))
