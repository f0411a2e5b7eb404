"""The names of faults by their numbers."""
import sys

from bpftap._errors import fault_line

for number in sys.argv[1:]:
    print(fault_line(int(number)).partition(" ")[0])
