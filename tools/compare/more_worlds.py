"""More worlds worked out by hand: operations that aren't frames, notices, errors, and ends."""
from world_parts import CLOSED, DISCARD, FD_FRAME, FRAME, HEAD, ONE, UNKNOWN, WAKEUP
from world_parts import ended, opened, plain, stepped, terminals, turn

OWN_RATE, OTHER_RATE = "400000000d0000000190d00300", "400000000d0000000120a10700"  # 250000, 500000
OWN_DATA_RATE, OTHER_DATA_RATE = "400000000d0000000280841e00", "400000000d0000000207000000"  # 2000000, 7
PASSIVE, KEEP, NOTHING_SAID = "410000000900000002", "400000000a0000000401", "010000000a0000000000"
AT_98000 = ["interval ok 98 1000000 changed"]
AT_1040000 = ["interval ok 1040 1000000 changed"]
AT_5248000 = ["interval ok 5248 1000000 changed"]
UNCHANGED = ["interval ok 0 0 unchanged"]
OPENING = ["Instantiate", "EnterInit", "ExitInit"]

# An error passive sender suspends, so the later attempts are 84,000 ticks apart; 128 * 11 bits behind the last one
# and its intermission the node is back.
STARTS = [68000 * place for place in range(16)] + [1104000 + 84000 * place for place in range(16)]
STATES = {1082000: "1082000 0 state 0 passive\n", 2426000: "2426000 0 state 0 off\n"}
ATTEMPTS = "".join(f"{start} 0 start 0 000#\n{start + 62000} 0 fail 0 000# 1 0\n" + STATES.get(start + 62000, "")
                   for start in STARTS)
OFF_AND_BACK = "0 0 req 0 000#\n" + ATTEMPTS + "5248000 0 back 0\n5248000 0 wake 1\nend 0 99"
OVER_AND_PASSIVE = "0 0 req 0 000#\n" + "".join(
    f"{start} 0 start 0 000#\n{start + 62000} 0 fail 0 000# 1 0\n" for start in STARTS[:15]) + """1020000 0 start 0 000#
1040000 - over 0
1082000 0 fail 0 000# 1 0
1082000 0 state 0 passive
end 0 50"""

WORLDS = [
    ("operations without a frame, bus by bus", HEAD + ["bus 250000 0"]
     + terminals(1, 0) + opened(OWN_RATE + OTHER_RATE + OTHER_DATA_RATE + FD_FRAME,
                                OWN_DATA_RATE + OTHER_DATA_RATE + PASSIVE + NOTHING_SAID + KEEP + "4200")
     + stepped(2, None, None) + stepped(2, None, None) + CLOSED, (1000000, 100), f"""0 0 fdrate 0 2000000
0 0 bad 0 {OTHER_DATA_RATE}
0 0 status 0 passive
0 0 ferr 0 -
0 0 keep 0
0 0 bad 0 4200
0 1 rate 0 250000
0 1 bad 0 {OTHER_RATE}
0 1 fdrate 0 7
0 1 bad 0 {FD_FRAME}
2000 0 told 0 format {OTHER_DATA_RATE}
4000 1 told 0 format {OTHER_RATE}
end 0 3""", {
        0: OPENING + ["GetClock 2", "GetBinary 3", "GetClock 12", "GetBinary 13", "Update", "EnterStep",
                      "DoStep 0 2000", "EnterEvent", "SetClock 10",
                      "SetBinary 11 01000000170000000d00" + OTHER_DATA_RATE,
                      "GetClock 2", "GetClock 12", "Update", "EnterStep",
                      "DoStep 2000 2000", "EnterEvent", "SetClock 0",
                      "SetBinary 1 01000000170000000d00" + OTHER_RATE,
                      "GetClock 2", "GetClock 12", "Update", "EnterStep", "Terminate", "Free"],
    }),
    ("an error that a listener detects", HEAD + ["error 1 1 3 1 10"]
     + terminals(0) + opened(FRAME) + stepped(2, None) + stepped(2, None) + CLOSED
     + terminals(0) + opened(None) + stepped(2, None) + stepped(2, None) + CLOSED
     + terminals(0) + opened(None) + stepped(2, None) + stepped(2, None) + CLOSED, (1000000, 100), """0 0 req 0 000#
0 0 start 0 000#
62000 0 fail 0 000# 3 1
68000 0 start 0 000#
168000 0 done 0 000# to 1,2
end 0 7""", {
        number: OPENING + ["GetClock 2", *(["GetBinary 3"] if number == 0 else []), "Update", "EnterStep",
                           "DoStep 0 62000", "EnterEvent", "SetClock 0",
                           "SetBinary 1 310000000f00000000000000" + told, "GetClock 2", "Update", "EnterStep",
                           "DoStep 62000 106000", "EnterEvent", "SetClock 0",
                           "SetBinary 1 " + ("200000000c00000000000000" if number == 0 else FRAME),
                           "GetClock 2", "Update", "EnterStep", "Terminate", "Free"]
        for number, told in enumerate(["030201", "030100", "030200"])
    }),
    ("mail and a notice at one moment", HEAD
     + terminals(0) + opened(FRAME) + stepped(2, None) + CLOSED
     + terminals(0) + ["clock 4"] + opened(None, intervals=AT_98000) + stepped(1, "00", intervals=UNKNOWN)
     + stepped(2, None, intervals=UNKNOWN) + CLOSED, (1000000, 100), """0 0 req 0 000#
0 0 start 0 000#
98000 0 bad 1 00
100000 0 done 0 000# to 1
100000 0 told 1 format 00
end 0 5""", {
        1: OPENING + ["GetClock 2", "Update", "GetInterval 4", "EnterStep",
                      "DoStep 0 98000", "EnterEvent", "SetClock 4", "GetClock 2", "GetBinary 3", "Update",
                      "GetInterval 4", "EnterStep", "DoStep 98000 2000", "EnterEvent", "SetClock 0",
                      "SetBinary 1 " + FRAME + "010000000b000000010000", "GetClock 2", "Update",
                      "GetInterval 4", "EnterStep", "Terminate", "Free"],
    }),
    ("a discarded request", HEAD
     + terminals(0) + opened(DISCARD + ONE) + stepped(2, None) + stepped(2, None) + CLOSED
     + terminals(0) + opened(FRAME) + stepped(2, None) + CLOSED, (1000000, 100), """0 0 discard 0
0 0 req 0 001#
0 0 req 1 000#
0 0 start 1 000#
0 0 lost 0 001# gone
2000 0 told 0 lost 00000001
100000 0 done 1 000# to 0
end 0 5""", {
        0: OPENING + ["GetClock 2", "GetBinary 3", "Update", "EnterStep",
                      "DoStep 0 2000", "EnterEvent", "SetClock 0", "SetBinary 1 300000000c00000001000000",
                      "GetClock 2", "Update", "EnterStep", "DoStep 2000 98000", "EnterEvent", "SetClock 0",
                      "SetBinary 1 " + FRAME, "GetClock 2", "Update", "EnterStep", "Terminate", "Free"],
    }),
    ("units that fail at the close", HEAD
     + terminals(0) + opened(None) + ["plain error", "plain ok"]
     + terminals(0) + opened(None) + ["plain fatal"]
     + terminals(0) + opened(None) + ["plain ok", "broken trap"], (1000000, 100), """0 - down 0 Status3
0 - down 1 Status4
end 0 1""", {
        0: OPENING + ["GetClock 2", "Update", "EnterStep", "Terminate", "Free"],
        1: OPENING + ["GetClock 2", "Update", "EnterStep", "Terminate"],
        2: OPENING + ["GetClock 2", "Update", "EnterStep", "Terminate", "Free"],
    }),
    ("a unit that goes down emits nothing", HEAD
     + terminals(0) + plain(3) + turn(FRAME, another=1) * 16
     + terminals(0) + ["clock 4", "clock 5"] + plain(3) + turn(ONE) + ["interval ok 1 2000000000 changed"]
     + terminals(0) + ["clock 4"] + opened(None, intervals=["interval warning 1 0 unchanged"]) + CLOSED,
     (1000000, 100), """0 - down 0 Loop
0 - down 1 BadInterval
end 0 1""", {
        0: OPENING + ["GetClock 2", "GetBinary 3", "Update"] * 16,
        1: OPENING + ["GetClock 2", "GetBinary 3", "Update", "GetInterval 4"],
        2: OPENING + ["GetClock 2", "Update", "GetInterval 4", "EnterStep", "Terminate", "Free"],
    }),
    ("a node that is off comes back before the sessions of that moment", HEAD + ["error 1 32 1 sender 10"]
     + terminals(0) + opened(FRAME) + stepped(2, None) * 32 + CLOSED
     + terminals(0) + ["clock 4"] + opened(None, intervals=AT_5248000)
     + stepped(2, None, intervals=UNCHANGED) * 32 + stepped(1, WAKEUP, intervals=UNKNOWN) + CLOSED,
     (5249000, 1000), OFF_AND_BACK, {}),
    ("the counter of a sender that is over rises at the end of its attempt", HEAD + ["error 1 16 1 sender 10"]
     + terminals(0) + ["clock 4"] + opened(FRAME, intervals=AT_1040000)
     + stepped(2, None, intervals=UNCHANGED) * 15 + ended(1, None)
     + terminals(0) + opened(None) + stepped(2, None) * 16 + CLOSED, (2000000, 1000), OVER_AND_PASSIVE, {}),
]
