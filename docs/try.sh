#!/usr/bin/env bash
# Runs every command line that README.md, the pages of docs/, examples/README.md, tools/README.md and the manual page show, and compares its
# output, its status, and that it prints nothing to standard error, with what the page says. Run it by hand at the top of the repository,
# once the program is built; it is no part of the gate:
#     docs/try.sh [the program, crates/regions/out/regions by default]
# A block of lines that begins with `$ ` is a command and what it prints to standard output, empty lines included. ` # status N` may follow
# the command; the default is 0. Lines of standard error are shown by `2>&1`. A row of a table may have such a command, then the status and
# one of the lines that are printed. The manual page has no statuses and may leave output out: lines that follow a command are those of both outputs.
# tools/check_certificate.py checks each system and certificate that a command line gives to `verify`, or that `synthesize` writes, and has
# to answer the same yes or no as `verify`.
# The script and the Makefile of docs/guide.md are run with a system that has a net, with one that has none, and with a broken file.
# The last line is `N passed, M failed`. The status is 0 if nothing failed and at least `least` lines were tried.
set -u
top=$(cd "$(dirname "$0")/.." && pwd)
program=$(readlink -m "${1:-$top/crates/regions/out/regions}")
[ -x "$program" ] || { echo "no program at $program: build it first (README.md)"; exit 2; }
room=$(mktemp -d)
trap 'rm -rf "$room"' EXIT
mkdir "$room/bin"
ln -s "$program" "$room/bin/regions"
cp -r "$top/examples" "$room/examples"
cp -r "$top/tools" "$room/tools"
cd "$room" || exit 2
export PATH="$room/bin:$PATH"
passed=0
failed=0
# how many lines the pages have at least; raise it when they get more
least=217

# counts a result. Arguments: whether the result is right, the page, the command, what differs
count() {
  if [ "$1" = yes ]; then
    passed=$((passed + 1))
  else
    failed=$((failed + 1))
    printf 'differs in %s: %s\n%s\n' "$2" "$3" "$4"
  fi
}

# runs a command of a block. Arguments: the command, what it prints, the page
try() {
  local line=$1 wanted_status=0 status right=no
  case "$line" in *' # status '[0-9]) wanted_status=${line##* } ;; esac
  bash -c "$line" > "$room/out" 2> "$room/err"
  status=$?
  if [ "$(cat "$room/out")" = "$2" ] && [ "$status" = "$wanted_status" ] && [ ! -s "$room/err" ]; then right=yes; fi
  count "$right" "$3" "$line" "status $status, expected $wanted_status; $(diff <(printf '%s\n' "$2") "$room/out" | head -20; head -3 "$room/err")"
  both "$3" "$status" "$line"
}

# runs a command of a row. Arguments: the command, its status, one of the lines that it prints, the page
try_row() {
  local status right=no
  bash -c "$1" > "$room/out" 2>&1
  status=$?
  if [ "$status" = "$2" ] && grep -qxF -e "$3" "$room/out"; then right=yes; fi
  count "$right" "$4" "$1" "status $status, expected $2; no line $3"
  both "$4" "$status" "$1"
}

# compares `verify` with the checker after a `verify`, or a `synthesize` that wrote a certificate. Arguments: the page, the status, the command
both() {
  local page=$1 status=$2 line=${3% # status [0-9]} file certificate form=apt verdict=0 right=no
  local -a words
  read -ra words <<< "$line"
  file=${words[3]-}
  case "$status $line" in
    '0 regions verify '* | '1 regions verify '*) file=${words[2]} certificate=${words[3]} verdict=$status ;;
    '1 regions synthesize '*' > '*) certificate=${line##* > } ;;
    '1 regions synthesize '*) certificate=$room/out ;;
    *) return ;;
  esac
  cp "$certificate" "$room/certificate"
  case "$line" in
    *' --from words'*) form=words ;;
    *' --from graph'*) form=graph ;;
  esac
  regions verify "$file" "$room/certificate" --from "$form" > "$room/first" 2> "$room/err"
  [ $? = "$verdict" ] && right=yes
  python3 tools/check_certificate.py "$file" "$room/certificate" --from "$form" > "$room/second" 2>> "$room/err"
  [ $? = "$verdict" ] || right=no
  [ "$verdict" = 1 ] || cmp -s "$room/first" "$room/second" || right=no
  count "$right" "$page" "verify and the checker after: $line" "$(cat "$room/first" "$room/second" "$room/err")"
}

# runs a command of the manual page. Arguments: the command, what it prints if that is shown, whether it is shown
try_manual() {
  local status right=no
  bash -c "$1" > "$room/out" 2>&1
  status=$?
  if [ "$3" = no ]; then
    [ "$status" -le 1 ] && right=yes
  else
    [ "$(cat "$room/out")" = "$2" ] && right=yes
  fi
  count "$right" docs/regions.1 "$1" "status $status; $(diff <(printf '%s\n' "$2") "$room/out" | head -20)"
}

for page in README.md $(cd "$top" && echo docs/*.md) examples/README.md tools/README.md; do
  command='' wanted='' gap=''
  while IFS= read -r line || [ -n "$line" ]; do
    case "$line" in
      '    $ '*)
        [ -z "$command" ] || try "$command" "$wanted" "$page"
        command=${line#'    $ '}
        wanted='' gap=''
        ;;
      '    '*)
        [ -z "$command" ] || wanted=${wanted:+$wanted$'\n'}$gap${line#'    '}
        gap=''
        ;;
      '') gap=$gap$'\n' ;;
      '|'*'`$ '*)
        row=${line#*'`$ '}
        result=${row#*'` | '}
        shown_line=${result#*': `'}
        try_row "${row%%'` | '*}" "${result%%:*}" "${shown_line%'` |'}" "$page"
        ;;
      *)
        [ -z "$command" ] || try "$command" "$wanted" "$page"
        command=''
        ;;
    esac
  done < "$top/$page"
  [ -z "$command" ] || try "$command" "$wanted" "$page"
done

inside=no
command=''
wanted=''
shown=no
while IFS= read -r line; do
  case "$inside $line" in
    *' .Bd -literal'*) inside=yes ;;
    'yes .Ed')
      [ -z "$command" ] || try_manual "$command" "$wanted" "$shown"
      inside=no command='' ;;
    'yes $ '*)
      [ -z "$command" ] || try_manual "$command" "$wanted" "$shown"
      command=${line#'$ '} wanted='' shown=no ;;
    'yes '*)
      wanted=${wanted:+$wanted$'\n'}$line shown=yes ;;
  esac
done < "$top/docs/regions.1"

# what no page shows: an argument that isn't UTF-8, a folder instead of a file, output that isn't taken, or only in part; and for each status with
# a line on standard error, that the line is there and nothing is written to standard output
try "regions \$'\\xff' # status 9" '' docs/try.sh
try "regions examine examples # status 5" '' docs/try.sh
try "regions generate grid 1 > /dev/full # status 6" '' docs/try.sh
try "(trap '' XFSZ; ulimit -f 1; regions generate grid 63 > big) # status 6" '' docs/try.sh
try "regions examine nowhere 2> /dev/null # status 3" '' docs/try.sh
try "regions examine nowhere 2>&1 > /dev/null # status 3" 'file 1: missing' docs/try.sh
try "regions examine 2> /dev/null # status 2" '' docs/try.sh
try "regions examine 2>&1 > /dev/null # status 2" 'usage: words refused' docs/try.sh
try "regions generate doubling 127 > doubling; regions synthesize none doubling 2> /dev/null # status 4" '' docs/try.sh
try "regions synthesize none doubling 2>&1 > /dev/null # status 4" 'too wide: cycle: 85070591730234615865843651857942052864 * 2 - 0 * 0' docs/try.sh

# the block of a page that begins with a line, without its indent. Arguments: the page, the line
block() { awk -v first="    $2" '$0 == first { on = 1 } on && $0 == "" { exit } on { print substr($0, 5) }' "$top/$1"; }
block docs/guide.md 'status=0' > script
try 'cp examples/lock2.apt system.apt; bash -e script; regions check pure system.apt system.net' yes docs/guide.md
try 'cp examples/side.apt system.apt; bash -e script; regions verify system.apt system.cert' 'accepted: no net of class pure' docs/guide.md
try "echo x > system.apt; bash -e script 2>&1 # status 2" "file 1: expected Section at 0
status 3" docs/guide.md
mkdir many
block docs/guide.md 'all: $(patsubst %.apt,%.done,$(wildcard *.apt))' > many/Makefile
try 'cp examples/side.apt many/bad.apt; cp examples/lock2.apt many/good.apt; touch many/bad.net; make -s -C many; ls many; regions check pure many/good.apt many/good.net' 'Makefile
bad.apt
bad.cert
bad.done
good.apt
good.done
good.net
yes' docs/guide.md
try 'make -C many | grep -c regions # status 1' 0 docs/guide.md
try 'echo x > many/a.apt; make -s -C many 2> /dev/null # status 2' '' docs/guide.md
try 'ls many/a.*' 'many/a.apt' docs/guide.md
echo "$passed passed, $failed failed"
tried=$((passed + failed))
[ "$tried" -ge "$least" ] || echo "tried $tried lines, expected $least at least"
[ "$failed" = 0 ] && [ "$tried" -ge "$least" ]
