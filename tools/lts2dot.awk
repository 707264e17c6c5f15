# Draws a system by Graphviz: reads a system file as regions writes it (`regions convert apt FILE --from FORM`), and prints a graph for dot.
#     regions convert apt FILE | awk -f tools/lts2dot.awk | dot -Tsvg > system.svg
# The initial state has two circles; labels are at the arrows. Another line is an error: its number on standard error, and status 1.
function refuse(why) {
  print FILENAME ":" FNR ": " why > "/dev/stderr"
  failed = 1
  exit 1
}
function quoted(name) {
  gsub(/["\\]/, "\\\\&", name)
  return "\"" name "\""
}
{ sub(/\r$/, "") }
/^[ \t]*(\/\/|$)/ || /^[.]name "[^"]*"$/ { next }
(/^[.]type LTS$/ && section == "") || (/^[.](states|labels|arcs)$/ && section != "") {
  section = $1
  next
}
section == ".states" && NF == 1 {
  initial = sub(/\[initial\]$/, "")
  graph = graph sprintf("  %s%s;\n", quoted($1), initial ? " [shape=doublecircle]" : "")
  next
}
section == ".arcs" && NF >= 3 {
  label = $0
  sub(/^[^ ]+ /, "", label)
  sub(/ [^ ]+$/, "", label)
  graph = graph sprintf("  %s -> %s [label=%s];\n", quoted($1), quoted($NF), quoted(label))
  next
}
section != ".labels" || NF != 1 { refuse("expected a system file as `regions convert apt` writes it") }
END {
  if (failed)
    exit 1
  if (section != ".arcs")
    refuse("the file ends before `.arcs`")
  print "digraph system {\n  rankdir=LR;\n  node [shape=circle];\n" graph "}"
}
