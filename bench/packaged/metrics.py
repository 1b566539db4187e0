#!/usr/bin/env python3
"""Says what is wrong with a file that the package writes for Prometheus, if anything is.

    metrics.py FILE
"""

import pathlib
import sys

sys.path.append(str(pathlib.Path(__file__).resolve().parents[1]))

from lib.metrics import fault_of, numbers  # noqa: E402

LEAST = {"tacd_info", "tacd_serves_edits", "tacd_log_disk_available_bytes"}

text = pathlib.Path(sys.argv[1]).read_text("ascii")
lacks = LEAST - {name.partition("{")[0] for name in numbers(text)}
sys.exit(fault_of(text) or lacks and f"it lacks {lacks}" or None)
