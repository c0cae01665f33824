#!/usr/bin/env bash
# Checks tools/explain, tools/candump, tools/picture and docs/bench.1 on known files, with the proved
# program or the one that is named. What needs a package that isn't there is skipped, and that is said.
set -eu
here=$(cd "$(dirname "$0")" && pwd)
docs=$(realpath "$here/../docs")
BENCH=$(realpath "${1:-$here/../crates/bench/out/bench}")
export BENCH
folder=$(mktemp -d)
trap 'rm -rf "$folder"' EXIT
cd "$folder"
header='play 1000000000 500000 2000000 2 1000000\n'

fail() { echo "check_scripts: $*" >&2; exit 1; }

# refused LINE CAUSE TEXT: explain shows this line of a file of this text, with this in its cause.
refused() {
  local status=0
  printf "$3" > bad.play
  "$here/explain" bad.play > answer || status=$?
  [ "$status" = 3 ] || fail "explain: status $status for $3"
  grep -qF "line $1 is refused" answer && grep -qF "likely: " answer && grep -qF "$2" answer \
    || fail "explain: not line $1 and '$2' for $3: $(cat answer)"
}
refused 1 "the file is empty" ''
refused 1 'CR LF' "play 1000000000 500000 0 2 1000000\r\n0 0 send 000#\r\n"
refused 1 'byte order mark' "\xef\xbb\xbf$header"
refused 1 'UTF-16' "\xff\xfep\0l\0a\0y\0"
refused 1 'first line is the header' '0 0 send 000#\n'
refused 1 'a multiple of RATE' 'play 1000 300 0 2 10\n'
refused 1 'has no line feed' 'play 1000 10 0 2 10'
refused 1 'NODES is from 1 to 32' 'play 1000 10 0 33 10\n'
refused 2 'comment' "$header# two nodes\n"
refused 2 'blank' "$header\n0 0 send 000#\n"
refused 2 'a space too many' "${header}0 0  send 000#\n"
refused 2 'a tab' "${header}0 0\tsend 000#\n"
refused 2 'lower case' "${header}0 0 send 0FF#\n"
refused 2 'three or eight' "${header}0 0 send ff#\n"
refused 2 'at most 7ff' "${header}0 0 send 800#\n"
refused 2 'two hexadecimal digits' "${header}0 0 send 000#1\n"
refused 2 '0 to 8 bytes' "${header}0 0 send 000#112233445566778899\n"
refused 2 'nothing behind #R' "${header}0 0 send 000#R4\n"
refused 2 'positive FDRATE' 'play 1000 10 0 2 10\n0 0 send 000##0\n'
refused 2 'N is from 0 to 1' "${header}0 2 wake\n"
refused 2 'leading zero' "${header}00 0 wake\n"
refused 2 'send, wake, sleep' "${header}0 0 SEND 000#\n"
refused 3 'moments' "${header}5 0 wake\n4 0 wake\n"
refused 3 'in front of the actions' "${header}0 0 wake\nerror 1 1 1 sender 0\n"
refused 2 'KIND is from 1 to 4' "${header}error 1 1 5 sender 0\n"
refused 2 'has no line feed' "${header}0 0 send 000#"

# The picture in docs is that of its play.
"$BENCH" play "$docs/picture.play" > picture.log
"$here/picture" picture.log "$docs/picture.play" --width 1000 > picture.svg
cmp picture.svg "$docs/picture.svg" || fail "docs/picture.svg isn't what tools/picture draws of docs/picture.play"
"$here/explain" "$docs/picture.play" > answer
grep -q 'a play' answer || fail "explain: docs/picture.play"
python3 -c 'import sys, xml.dom.minidom; xml.dom.minidom.parse(sys.argv[1])' picture.svg
"$here/picture" picture.log --from 0 --to 200000 > part.svg
grep -q '>lost 100# keep<' part.svg || fail "picture: a lost arbitration is missing"
grep -q '>0ff#<' part.svg || fail "picture: the identifier of a frame is missing"
for log in "$docs"/../examples/plays/*.log; do
  [ -e "$log" ] || continue
  "$here/picture" "$log" > part.svg || fail "picture: $log"
  "$here/candump" "$log" "${log%.log}.play" > frames || fail "candump: $log"
  [ "$(wc -l < frames)" = "$(grep -c ' done ' "$log")" ] || fail "candump: the lines of $log"
done
if echo '0 0 nothing' > bad.log; "$here/picture" bad.log > /dev/null 2>&1; then fail "picture: a bad log is drawn"; fi

# All kinds of frames, as candump has them.
{
  printf 'play 1000000000 500000 2000000 2 3000000\n'
  printf '0 0 send %s\n' 123#0a0b 00000123# 1fffffff#R 7ff#R 123##0 123##1112233 00000123##2ff 123##3000102030405060708090a0b
} > kinds.play
"$BENCH" play kinds.play > kinds.log
"$here/candump" kinds.log kinds.play 10 > kinds.candump
[ "$(wc -l < kinds.candump)" = "$(grep -c ' done ' kinds.log)" ] && [ "$(wc -l < kinds.candump)" = 8 ] || fail "candump: lines"
grep -qE '^\(10\.00[0-9]{4}\) can0 123##1112233$' kinds.candump || fail "candump: an FD frame"
grep -qE '^\(10\.00[0-9]{4}\) can0 1FFFFFFF#R$' kinds.candump || fail "candump: a remote frame"
python=$(for p in python3 /usr/bin/python3; do "$p" -c 'import can' 2> /dev/null && echo "$p" && break; done || true)
if [ -n "$python" ]; then
  "$python" - kinds.candump kinds.log << 'END'
import sys, can
wanted = []
for line in open(sys.argv[2]):
    words = line.split()
    if words[2] == "done":
        name, _, data = words[4].partition("#")
        fd, remote = data.startswith("#"), data == "R"
        flags = int(data[1]) if fd else 0
        data = "" if remote else data[2:] if fd else data
        wanted.append((int(name, 16), len(name) == 8, remote, fd, bool(flags & 1), bool(flags & 2), bytes.fromhex(data)))
read = [(m.arbitration_id, m.is_extended_id, m.is_remote_frame, m.is_fd, m.bitrate_switch,
         m.error_state_indicator, bytes(m.data)) for m in can.CanutilsLogReader(sys.argv[1])]
sys.exit(None if read == wanted else "check_scripts: python-can reads %s" % read)
END
else
  echo "check_scripts: python3-can isn't there: that it reads tools/candump is not checked"
fi

# The manual page.
if command -v mandoc > /dev/null; then
  lint=$(mandoc -T lint "$docs/bench.1" 2>&1 || true)
  [ -z "$lint" ] || fail "bench.1: $lint"
else
  echo "check_scripts: mandoc isn't there: docs/bench.1 is not checked"
fi

# Scripts with a check of their own: each is given the program.
for check in "$here"/checks/*; do
  [ ! -x "$check" ] || "$check" "$BENCH" || fail "$(basename "$check")"
done
