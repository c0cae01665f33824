#!/usr/bin/env python3
"""Plays worked out by hand, and files that each break one rule, against simulate.py.

A play stands with its whole log, or with lines of it in their order, where `...` stands for others.
"""
import sys

import broken
import simulate

HEADER = "play 1000000000 500000 2000000 %d %d"
PLAIN = HEADER % (2, 1000000)

WORKED = [
    ("a frame", PLAIN, "0 0 send 000#", """0 0 req 0 000#
0 0 start 0 000#
100000 0 done 0 000# to 1
end 0 3"""),
    ("eight bytes of zeros", PLAIN, "0 0 send 000#0000000000000000", """...
248000 0 done 0 000#0000000000000000 to 1
end 0 3"""),
    ("an FD frame", PLAIN, "0 0 send 000##0", """...
124000 0 done 0 000##0 to 1
end 0 3"""),
    ("an FD frame with a bit rate switch", PLAIN, "0 0 send 000##1", """...
74000 0 done 0 000##1 to 1
end 0 3"""),
    ("arbitration", PLAIN, "0 0 send 100#\n0 1 send 0ff#", """0 0 req 0 100#
0 0 req 1 0ff#
0 0 start 1 0ff#
0 0 lost 0 100# keep
94000 0 done 1 0ff# to 0
100000 0 start 0 100#
196000 0 done 0 100# to 1
end 0 5"""),
    ("base format before extended", PLAIN, "0 0 send 04000000#\n0 1 send 100#", """...
0 0 start 1 100#
0 0 lost 0 04000000# keep
96000 0 done 1 100# to 0
102000 0 start 0 04000000#
242000 0 done 0 04000000# to 1
end 0 5"""),
    ("an extended frame of a lower identifier", PLAIN, "0 0 send 03fc0000#\n0 1 send 100#", """...
142000 0 done 0 03fc0000# to 1
148000 0 start 1 100#
244000 0 done 1 100# to 0
end 0 5"""),
    ("data before remote", PLAIN, "0 0 send 100#R\n0 1 send 100#", """...
96000 0 done 1 100# to 0
102000 0 start 0 100#R
194000 0 done 0 100#R to 1
end 0 5"""),
    ("one identifier twice", PLAIN, "0 0 send 100#\n0 1 send 100#", """...
0 0 start 0 100#
...
102000 0 start 1 100#
..."""),
    ("no preemption", PLAIN, "0 0 send 100#\n1 1 send 0ff#", """...
96000 0 done 0 100# to 1
102000 0 start 1 0ff#
196000 0 done 1 0ff# to 0
end 0 6"""),
    ("FD and classical of one identifier", PLAIN, "0 1 send 100#\n0 0 send 100##0", """...
0 0 start 0 100##0
0 0 lost 1 100# keep
124000 0 done 0 100##0 to 1
130000 0 start 1 100#
226000 0 done 1 100# to 0
end 0 5"""),
    ("discard", PLAIN, "0 0 discard\n0 0 send 100#\n0 0 send 101#\n0 1 send 0ff#", """0 0 discard 0
0 0 req 0 100#
0 0 req 0 101#
0 0 req 1 0ff#
0 0 start 1 0ff#
0 0 lost 0 100# gone
2000 0 told 0 lost 00000100
94000 0 done 1 0ff# to 0
100000 0 start 0 101#
192000 0 done 0 101# to 1
end 0 6"""),
    ("a node alone becomes passive", HEADER % (1, 4432000), "0 0 send 000#", """0 0 req 0 000#
0 0 start 0 000#
124000 0 fail 0 000# 5 0
130000 0 start 0 000#
...
1950000 0 start 0 000#
2074000 0 fail 0 000# 5 0
2074000 0 state 0 passive
2096000 0 start 0 000#
2220000 0 fail 0 000# 5 0
2242000 0 start 0 000#
...
4432000 0 start 0 000#
end 0 66"""),
    ("bus off and back", HEADER % (3, 6000000),
     "error 1 32 1 sender 10\n0 0 send 000#\n3000000 1 send 000#", """...
62000 0 fail 0 000# 1 0
...
1082000 0 state 0 passive
...
2364000 0 start 0 000#
2426000 0 fail 0 000# 1 0
2426000 0 state 0 off
3000000 0 req 1 000#
3000000 0 start 1 000#
3100000 0 done 1 000# to 2
5350000 0 back 0
end 0 69"""),
    ("sleep and wake", HEADER % (3, 1000000),
     "0 2 sleep\n0 0 send 000#\n100000 1 wake\n110000 0 send 000#", """0 0 sleep 2
0 0 req 0 000#
0 0 start 0 000#
100000 0 done 0 000# to 1
100000 0 wake 1
102000 0 told 0 wake
102000 0 told 2 wake
110000 0 req 0 000#
110000 0 start 0 000#
210000 0 done 0 000# to 1,2
end 0 8"""),
    ("a passive listener is hurt", HEADER % (3, 2000000),
     "error 1 17 1 1 10\n0 0 send 000#", """0 0 req 0 000#
0 0 start 0 000#
62000 0 fail 0 000# 1 1
68000 0 start 0 000#
...
1082000 0 fail 0 000# 1 1
1082000 0 state 0 passive
1082000 0 state 1 passive
1104000 0 start 0 000#
1204000 0 done 0 000# to 2
1204000 0 hurt 1 1
1204000 0 state 0 active
end 0 35"""),
    ("the only listener is hurt, so nobody acknowledges", HEADER % (2, 1228000),
     "error 1 17 1 1 10\n0 0 send 000#", """...
1082000 0 fail 0 000# 1 1
1082000 0 state 0 passive
1082000 0 state 1 passive
1104000 0 start 0 000#
1228000 0 fail 0 000# 5 0
1228000 0 hurt 1 1
end 0 35"""),
    ("a line of the script for a node that sleeps doesn't apply", HEADER % (3, 100000),
     "error 1 1 4 2 30\nerror 1 1 2 1 10\n0 2 sleep\n0 0 send 000#", """0 0 sleep 2
0 0 req 0 000#
0 0 start 0 000#
62000 0 fail 0 000# 2 1
68000 0 start 0 000#
end 0 4"""),
    ("an error behind the last bit, and a sender that sleeps", PLAIN,
     "error 1 1 3 sender 1023\n0 0 send 000#\n50000 0 sleep\n200000 0 wake", """0 0 req 0 000#
0 0 start 0 000#
50000 0 sleep 0
140000 0 fail 0 000# 3 0
200000 0 wake 0
200000 0 start 0 000#
202000 0 told 1 wake
300000 0 done 0 000# to 1
end 0 8"""),
    ("a listener that falls asleep", PLAIN, "0 0 send 000#\n50000 1 sleep", """0 0 req 0 000#
0 0 start 0 000#
50000 0 sleep 1
100000 0 done 0 000# to -
end 0 4"""),
]


def agrees(log, wanted):
    """Whether a log is the lines that are wanted, with any number of lines at each `...`."""
    place, free = 0, False
    for line in wanted:
        if line == "...":
            free = True
            continue
        if free and line in log[place:]:
            place = log.index(line, place)
        if place == len(log) or log[place] != line:
            return False
        place, free = place + 1, False
    return free or place == len(log)


def wrong_plays():
    for name, header, lines, wanted in WORKED:
        text = (header + "\n" + lines + "\n").encode()
        status, log, error = simulate.outcome(text)
        if status or error or not agrees(log.decode().splitlines(), wanted.splitlines()):
            yield f"{name}: the log is\n{(log + error).decode()}"


def wrong_refusals():
    for text, why, place in broken.refused():
        outcome = simulate.outcome(text)
        if outcome != (3, b"", b"refused main %s %d 0\n" % (why, place)):
            yield f"{text[:400]!r} isn't refused as {why} {place}: {outcome}"
    for text in broken.accepted():
        if simulate.outcome(text)[0] != 0:
            yield f"{text[:400]!r} is refused"


def main():
    wrong = list(wrong_plays()) + list(wrong_refusals())
    for line in wrong:
        print(line)
    sys.exit(1 if wrong else 0)


if __name__ == "__main__":
    main()
