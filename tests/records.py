"""Where the scripts of tests/ find the layouts of records: their one home is tools/ward/records.py."""

import os
import sys

sys.path.insert(0, os.path.join(os.path.dirname(os.path.dirname(os.path.abspath(__file__))), "tools"))
from ward.records import *  # noqa: E402,F401,F403
