"""Cuts captures by an expression, to 64 bytes, and prints of each the fault and what was written."""
import pathlib
import sys

from bpftap import CaptureError, Filter, cut

keep = Filter(sys.argv[1], 64)
for name in sys.argv[2:]:
    fault = ""
    try:
        written = cut(pathlib.Path(name).read_bytes(), keep, 64)
    except CaptureError as error:
        fault, written = str(error), error.written
    print(f"{fault}\t{written.hex()}")
