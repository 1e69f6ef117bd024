"""The checks of the cluster."""
import os
import sys

# what the checks of several programs share
sys.path.append(os.path.join(os.path.dirname(os.path.dirname(os.path.dirname(os.path.realpath(__file__)))), ".ci"))
