"""Where the teacher's tools stand, which the scripts of this folder use too: in teach/, beside it."""

import os
import sys

sys.path.insert(1, os.path.join(os.path.dirname(os.path.abspath(__file__)), "..", "teach"))
