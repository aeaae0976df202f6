#!/usr/bin/env python3
"""Reads each line of standard input as JSON, and writes it again: what a plain program does with a model.

It judges nothing, and builds no city. bench/README compares cityed with it, and with jq.
"""

import json
import sys

for line in sys.stdin.buffer:
    sys.stdout.write(json.dumps(json.loads(line), separators=(",", ":")) + "\n")
