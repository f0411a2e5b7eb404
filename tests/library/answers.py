"""What expressions of standard input answer to the packets of a capture, as `answers.c` prints it."""
import sys

from bpftap import Filter, FilterError, read

packets = list(read(sys.argv[1]))
for line in sys.stdin:
    try:
        wanted = Filter(line.rstrip("\n"))
    except FilterError as error:
        # Below its line an error has what helps.
        print(str(error).partition("\n")[0])
        continue
    answers = [wanted.matches(packet) for packet in packets]
    assert [answer != 0 for answer in wanted.run_each(packets)] == answers
    print("".join(map(str, map(int, answers))))
