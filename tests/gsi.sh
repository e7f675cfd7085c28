#!/bin/sh
# The launcher's first run: what it shows while the crates are proved, on a pipe and on a terminal. It runs in a copy, and a stand-in for rt says
# what the real one says.
set -eu
cd "$(dirname "$0")/.."
work=$(mktemp -d)
trap 'rm -rf "$work"' EXIT
copy=$work/copy
mkdir -p "$copy/crates/sheet/src" "$work/bin" "$work/tmp"
cp gsi "$copy/gsi"

fail() {
    echo "tests/gsi.sh: $1" >&2
    exit 1
}

# same WHAT EXPECTED GOT: the two files are alike
same() {
    cmp -s "$2" "$3" || {
        diff "$2" "$3" | cat -v >&2
        fail "$1"
    }
}

# Five crates for the program sheet, and two that it doesn't need. rt takes words after figures, then pieces, sheets and sheet.
cat >"$copy/crates.txt" <<'END'
# NAME: DEP DEP ..
sheet: sheets std_io
blocks: words figures
sheets: words pieces figures # but not blocks: it is for the program reading
host staticlib: sheets
figures:
pieces:
words: figures
END
echo 'fn main() {}' >"$copy/crates/sheet/src/main.rt"

# rt: what `rt run` does is in the file check. Its words come on standard error, and what the program prints on standard output.
cat >"$work/bin/rt" <<'END'
#!/bin/sh
begun() { echo "rt: chose --jobs 2 for $1" && echo "fn $1::first: proved"; }
proved() { begun "$1" && echo 'logic=proved functions=1'; }
[ "$*" = run ] && [ "$(basename "$PWD")" = sheet ] && [ -f ../../crates.txt ] && mkdir "$TMPDIR/left" && echo 'what the program prints' && exec 1>&2 && . "$WORK/check"
END
chmod +x "$work/bin/rt"

# seconds FILE: the same words with each time as `N s`
seconds() { sed 's/, [0-9][0-9]* s/, N s/g' "$1"; }

# terminal.py TEXT COMMAND..: runs a command on a terminal, shows what comes there, and types Ctrl-C once TEXT has come, if it isn't empty
cat >"$work/terminal.py" <<'END'
import os, pty, signal, sys

text = sys.argv[1].encode()
child, master = pty.fork()
if child == 0:
    signal.signal(signal.SIGINT, signal.SIG_DFL)
    os.execvp(sys.argv[2], sys.argv[2:])
came = b""
while True:
    try:
        more = os.read(master, 4096)
    except OSError:  # the command ended, and with it the other end of the terminal
        break
    came += more
    if text and text in came:
        os.write(master, b"\x03")
        text = b""
os.write(1, came)
status = os.waitstatus_to_exitcode(os.waitpid(child, 0)[1])
sys.exit(status if status >= 0 else 128 - status)
END

export WORK="$work" PATH="$work/bin:$PATH" TERM=xterm TMPDIR="$work/tmp"
printf 'in\n' >"$work/in"
printf 'arguments a b\nin\n' >"$work/printed"
over=$(printf '\r\033[K')

# no arguments, and help
status=0
"$copy/gsi" >"$work/out" 2>"$work/err" || status=$?
[ "$status" -eq 2 ] && [ ! -s "$work/out" ] && grep -q '^usage: ' "$work/err" || fail "gsi alone doesn't give its usage"
"$copy/gsi" --help >"$work/out" 2>"$work/none" || fail "--help fails"
[ ! -s "$work/none" ] && cmp -s "$work/err" "$work/out" || fail "--help doesn't give the usage"
for program in 'reading [level]' 'mend [level]' sheet 'standin [--why] [--keep FILE] [TPS100 | TPS300 | SHEET]' move back; do
    sed 's/^  //; s/   .*//' "$work/out" | grep -Fqx "$program" || fail "the usage doesn't name $program"
done
! grep -q benchreadings "$work/out" || fail "the usage names a program of the gate's"
grep -q 'docs/REFUSALS\.md' "$work/out" && [ -f docs/REFUSALS.md ] || fail "the usage doesn't lead to the refusals"

# a check that goes well, with one crate proved before, of which rt says nothing; it goes on from the first crate only once that has been seen
cat >"$work/check" <<'END'
proved figures
tries=0
until [ -e "$WORK/seen" ]; do
    [ "$tries" -lt 50 ] || { echo "rt: nobody saw the first crate" && exit 2; }
    tries=$((tries + 1)) && sleep 0.1
done
proved words
sleep 0.1
proved sheets
mkdir -p out && printf '#!/bin/sh\necho arguments "$@"\ncat\n' >out/sheet && chmod +x out/sheet
proved sheet
echo 'rt: running out/sheet; to give it other input, run that file yourself'
exit 3 # the program's own status
END
cat >"$work/log" <<'END'
rt: chose --jobs 2 for figures
fn figures::first: proved
logic=proved functions=1
rt: chose --jobs 2 for words
fn words::first: proved
logic=proved functions=1
rt: chose --jobs 2 for sheets
fn sheets::first: proved
logic=proved functions=1
rt: chose --jobs 2 for sheet
fn sheet::first: proved
logic=proved functions=1
rt: running out/sheet; to give it other input, run that file yourself
END
cat >"$work/lines" <<'END'
gsi: proving and building sheet; this takes some minutes the first time ..
1 of 5: figures, N s
2 of 5: words, N s
4 of 5: sheets, N s
5 of 5: sheet, N s
gsi: sheet is proved and built
status 0
END
{
    status=0
    "$copy/gsi" sheet a b <"$work/in" 2>&1 >"$work/out" || status=$?
    echo "status $status"
} | while IFS= read -r line; do
    echo "$line"
    case $line in '1 of 5: figures, '*) : >"$work/seen" ;; esac
done >"$work/came"
seconds "$work/came" >"$work/err"
same "the lines on a pipe are others" "$work/lines" "$work/err"
same "the first run's standard output is another" "$work/printed" "$work/out"
same "the log lacks some of the check's words" "$work/log" "$copy/crates/sheet/out/gsi.log"

# once more: nothing is checked, whatever rt wrote into a crate's out/ meanwhile
sleep 0.1
: >"$copy/crates/sheet/out/later"
(cd "$work" && copy/gsi sheet a b <"$work/in" >"$work/out" 2>"$work/err") || fail "the second run fails"
[ ! -s "$work/err" ] || fail "the second run says something"
same "the second run's standard output is another" "$work/printed" "$work/out"

# a file of a crate that is newer: the same check, on a terminal
echo 'fn main() { }' >"$copy/crates/sheet/src/main.rt"
printf '%s\r\n' 'gsi: proving and building sheet; this takes some minutes the first time ..' >"$work/lines"
printf '%s' "${over}1 of 5: figures ..${over}1 of 5: figures, N s${over}2 of 5: words ..${over}2 of 5: words, N s" \
    "${over}4 of 5: sheets ..${over}4 of 5: sheets, N s${over}5 of 5: sheet ..${over}5 of 5: sheet, N s" >>"$work/lines"
printf '%s\r\n' "${over}gsi: sheet is proved and built" >>"$work/lines"
python3 "$work/terminal.py" '' sh -c 'exec "$0" sheet a b <"$WORK/in" >"$WORK/out"' "$copy/gsi" >"$work/came" || fail "the run on a terminal fails"
seconds "$work/came" >"$work/err"
same "what a terminal shows is another" "$work/lines" "$work/err"
same "the standard output beside a terminal is another" "$work/printed" "$work/out"
same "the log beside a terminal lacks some of the check's words" "$work/log" "$copy/crates/sheet/out/gsi.log"

# a check that fails, on a pipe and on a terminal: no program is left, the one of before neither
cat >"$work/check" <<'END'
proved figures
begun words
echo 'note: src/lib.rt:3:5: it is not proved that what the function ensures holds when it returns'
echo 'src/lib.rt:7:5: error: the sum may wrap'
echo 'fn words::second: no proof: expected answers in ./proofs/second/Answers.antt'
echo 'logic=not-proved'
echo 'rattle build: nothing was built, since only a proved crate is built'
echo 'rt: the library words did not build, so nothing above it was checked'
exit 1
END
cat >"$work/last" <<'END'
gsi: sheet isn't proved; crates/sheet/out/gsi.log has the check's words, the last of them:
src/lib.rt:7:5: error: the sum may wrap
fn words::second: no proof: expected answers in ./proofs/second/Answers.antt
rattle build: nothing was built, since only a proved crate is built
rt: the library words did not build, so nothing above it was checked
END
cat - "$work/last" >"$work/lines" <<'END'
gsi: proving and building sheet; this takes some minutes the first time ..
1 of 5: figures, N s
2 of 5: words, not proved
END
echo 'fn main() {  }' >"$copy/crates/sheet/src/main.rt"
for again in no yes; do
    status=0
    "$copy/gsi" sheet <"$work/in" >"$work/out" 2>"$work/came" || status=$?
    [ "$status" -eq 1 ] || fail "a check that fails gives the status $status (again: $again)"
    [ ! -s "$work/out" ] || fail "a check that fails prints something"
    seconds "$work/came" >"$work/err"
    same "the lines of a check that fails are others" "$work/lines" "$work/err"
done
status=0
python3 "$work/terminal.py" '' "$copy/gsi" sheet >"$work/err" || status=$?
[ "$status" -eq 1 ] || fail "a check that fails on a terminal gives the status $status"
{ printf '%s' "${over}2 of 5: words, not proved$over" && sed "s/\$/$(printf '\r')/" "$work/last"; } >"$work/lines"
tail -c "$(wc -c <"$work/lines")" "$work/err" >"$work/end"
same "a check that fails leaves another end on the terminal" "$work/lines" "$work/end"

# Ctrl-C ends a prover too, which rt runs in the background. The first process of a terminal outlives gsi, as a shell does: with its end all of
# them would end.
cat >"$work/check" <<'END'
sleep 30 &
echo "$!" >"$WORK/prover"
proved figures
begun words
wait
END
cat >"$work/shell" <<'END'
trap : INT
"$WORK/copy/gsi" sheet
status=$? tries=0
until case $(cut -d ' ' -f 3 "/proc/$(cat "$WORK/prover")/stat" 2>/dev/null) in '' | Z) true ;; *) false ;; esac do
    [ "$tries" -lt 30 ] || exit 99
    tries=$((tries + 1)) && sleep 0.1
done
exit "$status"
END
status=0
python3 "$work/terminal.py" '2 of 5: words ..' sh "$work/shell" >"$work/err" || status=$?
[ "$status" -ne 99 ] || fail "Ctrl-C leaves a prover"
[ "$status" -eq 130 ] || fail "Ctrl-C gives the status $status"
printf '%s\r\n' "${over}gsi: the check of sheet was interrupted" >"$work/lines"
tail -c "$(wc -c <"$work/lines")" "$work/err" >"$work/end"
same "Ctrl-C leaves another end on the terminal" "$work/lines" "$work/end"

[ -z "$(ls -A "$work/tmp")" ] || fail "temporary files are left"
echo "tests/gsi.sh: ok"
