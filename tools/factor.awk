# Prints one factor of a system as a system file. Reads what `regions factor` writes, then the system as `regions convert apt` writes it:
#     regions factor FILE > factors
#     awk -v n=0 -f tools/factor.awk factors FILE > factor0.apt
# Anything else is an error: its line on standard error, and status 1.
function refuse(why) {
  print why > "/dev/stderr"
  failed = 1
  exit 1
}
function refuse_line(why) {
  refuse(FILENAME ":" FNR ": " why)
}
function declared(name) {
  sub(/\[initial\]$/, "", name)
  if (name !~ /^[A-Za-z0-9_]+$/ || NF != 1)
    refuse_line("expected one name, as `regions convert apt` writes it")
  if (section == ".states" && !((name ":") in whole))
    refuse_line("the factors are of a system without the state " name)
  known[section, name]
  states += section == ".states"
  if ((section, name) in part) {
    text = text $1 "\n"
    found++
  }
}
BEGIN {
  if (ARGC != 3)
    refuse("usage: awk -v n=NUMBER -f tools/factor.awk FACTORS FILE")
  if (n !~ /^[0-9]+$/)
    refuse("factor.awk: -v n=NUMBER is missing: which factor, from 0")
}
{ sub(/\r$/, "") }
FNR == 1 { file++ }
file == 1 && FNR == 1 && !/^factors [0-9]+$/ { refuse_line("expected `factors N`, as `regions factor FILE` writes it") }
file == 1 {
  if ($1 == "factor" && $2 == n ":")
    for (i = 3; i <= NF; i++)
      if ($i == "labels" || $i == "states")
        kind = "." $i
      else {
        part[kind, $i]
        parts++
      }
  if ($1 !~ /^factors?$/) {
    whole[$1]
    wholes++
  }
  next
}
FNR == 1 && !parts { refuse("factor.awk: " ARGV[1] " has no factor " n) }
/^[ \t]*(\/\/|$)/ || /^[.]name "[^"]*"$/ { next }
(/^[.]type LTS$/ && section == "") || (/^[.](states|labels|arcs)$/ && section != "") {
  section = $1
  text = text $0 "\n"
  next
}
section == ".states" || section == ".labels" {
  declared($1)
  next
}
section == ".arcs" && NF == 3 && (".states", $1) in known && (".labels", $2) in known && (".states", $3) in known {
  if ((".states", $1) in part && (".labels", $2) in part)
    text = text $0 "\n"
  next
}
{ refuse_line("expected an arc of three names, as `regions convert apt` writes it") }
END {
  if (failed)
    exit 1
  if (states != wholes || found != parts)
    refuse("factor.awk: the factor is of another system than " ARGV[2])
  printf "%s", text
}
