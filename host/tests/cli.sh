#!/usr/bin/env bash
# Tests of the command line program. The words of this command are how to run it: the program, or an emulator and the program.
set -u
export LC_ALL=C
program=("$@")
sample=$(cd "$(dirname "$0")/../.." && pwd)/samples/chair.igs
folder=$(mktemp -d)
trap 'rm -rf "$folder"' EXIT
for i in "${!program[@]}"; do [ -e "${program[$i]}" ] && program[i]=$(realpath "${program[$i]}"); done
cd "$folder" || exit 3

passed=0
failed=0
good() { passed=$((passed + 1)); }
bad() { failed=$((failed + 1)); echo "cli: FAILED: $*"; }
same() { if [ "$2" = "$3" ]; then good; else bad "$1: got [$2], expected [$3]"; fi; }
holds() { local what=$1; shift; if "$@"; then good; else bad "$what"; fi; }
run() { "${program[@]}" "$@"; }
# Runs with standard output in out, standard error in err, and the status in status.
try() { run "$@" >out 2>err </dev/null; status=$?; }

cp "$sample" chair.igs
sed 's/15\.E-1/1HA   /' chair.igs >wrong.igs
head -c 485 chair.igs >short.igs
printf 'S\tSET PIECE\nG\t3\t5HCHAIR\nG\t4\t7Hset.igs\nE\t1\t116\t0\t0\t0\t0\t0\t0\t0\t01000000\t0\t0\t0\t   PIN01\nV\t15.E-1\nV\t0.\nV\t2.\nZ\t1\n' >chair.sheet
sed 's/^V\t2\.$/V\t2.0/' chair.sheet >wrong.sheet
tells_layout='wrong.igs:3: refused 14: an entity'\''s values don'\''t fit the layout of its type'

# A good file, to standard output, to a file, and through standard input.
try sheet chair.igs
same 'sheet status' "$status" 0
holds 'sheet bytes' cmp -s out chair.sheet
holds 'sheet is silent' test ! -s err
try sheet -o new.sheet chair.igs
same 'sheet -o status' "$status" 0
holds 'sheet -o bytes' cmp -s new.sheet chair.sheet
holds 'sheet -o prints nothing' test ! -s out
run sheet <chair.igs >out; same 'sheet from standard input' "$?" 0
holds 'sheet from standard input bytes' cmp -s out chair.sheet
run sheet -o - - <chair.igs >out; same 'sheet - status' "$?" 0
holds 'sheet - bytes' cmp -s out chair.sheet
run sheet chair.igs | run wrap >out; same 'there and back status' "$?" 0
holds 'there and back' cmp -s out chair.igs
try wrap chair.sheet
same 'wrap status' "$status" 0
holds 'wrap bytes' cmp -s out chair.igs
try sheet --list 0 chair.igs
same 'list status' "$status" 0
holds 'with list 0 the entity is unknown' grep -q '^U' out
try sheet --list=0 -- chair.igs
holds 'list=0' grep -q '^U' out

# Whole numbers at real places stay whole numbers, in the sheet and in the file that is written of it; a weight is above zero.
sed 's/116,15\.E-1,0\.,2\.;/116,15,0,2.;     /' chair.igs >whole.igs
sed 's/^V\t15\.E-1$/V\t15/; s/^V\t0\.$/V\t0/' chair.sheet >whole.sheet
try sheet whole.igs
same 'whole numbers status' "$status" 0
holds 'whole numbers in the sheet' cmp -s out whole.sheet
try wrap whole.sheet
same 'whole numbers wrapped status' "$status" 0
holds 'whole numbers in the written file' cmp -s out whole.igs
{ printf 'S\tCURVE\nG\t13\t1\nE\t1\t126\t0\t0\t0\t0\t0\t0\t0\t00000000\t0\t0\t0\t        \nV\t1\nV\t1\nV\t0\nV\t0\nV\t0\nV\t0\n'
  printf 'V\t%s\n' 0 0 1 1 1 2 0 0 0 -1 0 0 0 1; printf 'Z\t1\n'; } >curve.sheet
sed '14s/1/0/' curve.sheet >weightless.sheet
same 'a curve of whole numbers' "$(run wrap curve.sheet | run sheet)" "$(cat curve.sheet)"
try wrap weightless.sheet
same 'a weight of 0' "$(cut -d' ' -f1-3 err)" 'weightless.sheet:3: refused 14:'

# Refusals: message, status, no output.
try sheet wrong.igs
same 'refused status' "$status" 1
same 'refused message' "$(cat err)" "$tells_layout"
holds 'refused prints nothing' test ! -s out
run sheet <wrong.igs 2>err >out
same 'refused from standard input' "$(cut -d' ' -f1-3 err)" '-:3: refused 14:'
try sheet --list 16384 chair.igs
same 'list too large' "$(cut -d' ' -f1-3 err)" 'chair.igs:0: refused 1:'
same 'list too large status' "$status" 1
try wrap wrong.sheet
same 'refused sheet status' "$status" 1
same 'refused sheet message' "$(cat err)" 'wrong.sheet:7: refused 17: a line of the sheet is misspelt or out of order'
try sheet short.igs
same 'short file' "$(cut -d' ' -f1-3 err)" 'short.igs:0: refused 1:'
head -c 16200081 /dev/zero | run sheet >out 2>err
same 'too long a file status' "$?" 1
same 'too long a file' "$(cut -d' ' -f1-3 err)" '-:0: refused 1:'
: >empty; try sheet empty
same 'empty file' "$(cut -d' ' -f1-3 err)" 'empty:0: refused 1:'
try wrap empty
same 'empty sheet' "$(cut -d' ' -f1-3 err)" 'empty:1: refused 17:'

# -o leaves nothing on a refusal, keeps what was there, and replaces it whole.
mkdir tidy
try sheet -o tidy/out.sheet wrong.igs
same 'refused -o status' "$status" 1
same 'refused -o leaves nothing' "$(ls -A tidy)" ''
echo before >tidy/out.sheet
try sheet -o tidy/out.sheet wrong.igs
same 'refused -o keeps what was there' "$(cat tidy/out.sheet)" before
exec 9<tidy/out.sheet
chmod 640 tidy/out.sheet
try sheet -o tidy/out.sheet chair.igs
same 'replacing status' "$status" 0
holds 'replaced' cmp -s tidy/out.sheet chair.sheet
same 'who had it open still reads the old one' "$(cat <&9)" before
exec 9<&-
same 'replaced keeps its mode' "$(stat -c %a tidy/out.sheet)" 640
same 'nothing else is left' "$(ls -A tidy)" out.sheet
ln -s out.sheet tidy/link
try sheet --list 0 -o tidy/link chair.igs
holds 'a link stays a link' test -L tidy/link
holds 'what it names is replaced' grep -q '^U' tidy/out.sheet
cp chair.igs both; try sheet -o both both
holds 'input and output may be one file' cmp -s both chair.sheet

# Errors of the system.
try sheet nowhere.igs
same 'missing file status' "$status" 3
same 'missing file message' "$(cat err)" 'szelmikra: nowhere.igs: No such file or directory'
try sheet .
same 'a folder is no file' "$status" 3
try sheet -o nowhere/out chair.igs
same 'no such folder status' "$status" 3
run sheet chair.igs >/dev/full 2>err; same 'full disk status' "$?" 3
same 'full disk message' "$(cat err)" 'szelmikra: standard output: No space left on device'
try sheet -o /dev/full chair.igs
same 'full device status' "$status" 3
holds 'a device is never replaced' test -c /dev/full
run sheet chair.igs >&- 2>err; same 'closed output status' "$?" 3
run --version >/dev/full 2>err; same 'full disk for --version' "$?" 3
run sheet chair.igs -o quiet.sheet 2>&- >&- <&-; same 'all streams closed' "$?" 0
holds 'all streams closed bytes' cmp -s quiet.sheet chair.sheet
for _ in {1..60}; do printf 'S\t%072d\n' 1; done >long.sheet; printf 'Z\t0\n' >>long.sheet
mkdir limited; (ulimit -f 1; run wrap -o limited/out long.sheet 2>err); same 'size limit status' "$?" 3
same 'size limit leaves nothing' "$(ls -A limited)" ''

# Wrong usage.
for words in '' 'fold x' 'sheet --lost x' 'sheet --list' 'sheet --list many x' 'sheet -o' 'sheet a b' 'check' 'explain' 'explain 20' \
    'explain 0' 'explain x' 'check -o x y' '--help x' 'sheet --list 99999999999999999999 x'; do
    # shellcheck disable=SC2086
    try $words
    same "wrong usage: $words" "$status" 2
    holds "wrong usage is told: $words" test -s err
done

# check, explain, help, version.
try check chair.igs chair.igs
same 'check status' "$status" 0
same 'check count' "$(cat out)" '2 files, 0 refused'
holds 'check is silent' test ! -s err
try check wrong.igs chair.igs short.igs
same 'check refused status' "$status" 1
same 'check refused count' "$(cat out)" '3 files, 2 refused'
same 'check goes on after a refusal' "$(cut -d' ' -f1-3 err)" $'wrong.igs:3: refused 14:\nshort.igs:0: refused 1:'
try check --list 0 wrong.igs
same 'check with a list' "$(cat out)" '1 files, 0 refused'
try check wrong.igs nowhere.igs chair.igs
same 'check unreadable status' "$status" 3
same 'check unreadable count' "$(cat out)" '3 files, 1 refused, 1 could not be read'
for number in {1..19}; do
    try explain "$number"
    same "explain $number" "$status" 0
    holds "explain $number says something" test -s out
done
try explain 19
same 'explain 19 text' "$(head -n 1 out)" '19: the file would have more than 200,000 lines.'
try --help
same 'help status' "$status" 0
same 'help' "$(head -c 22 out)" 'usage: szelmikra sheet'
try --version
same 'version status' "$status" 0
holds 'version' grep -Eq '^szelmikra [0-9]+\.[0-9]+' out

echo "cli: $passed passed, $failed failed"
[ "$failed" -eq 0 ]
