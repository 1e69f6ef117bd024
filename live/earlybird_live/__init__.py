"""The prompt over logs, for people on a terminal, over the index program."""
import os
import sys

# what it shares with the console
sys.path.insert(1, os.path.join(os.path.dirname(os.path.dirname(os.path.dirname(os.path.abspath(__file__)))), "logs"))
