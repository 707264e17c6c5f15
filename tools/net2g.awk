# Writes a net as a signal transition graph in petrify's .g, once examples/old-names.awk has put the signals back:
#     awk -f examples/old-names.awk c.sg c.net | awk -v inputs="a b" -v outputs=c -f tools/net2g.awk > c.g
# A label that ends with +, - or ~, and perhaps a number as in a+/1, is an edge of a signal; -v inputs, outputs and internal name the
# signals. Other labels are dummies. A label of several transitions (a net of `split`) gets petrify's numbers: a+, a+/1, a+/2.
# A weight or a number of tokens above 1, a transition without a place, a signal that isn't named and a line of another form are errors:
# why on standard error, and status 1.
function refuse(why) {
  print why > "/dev/stderr"
  failed = 1
  exit 1
}
function refuse_line(why) {
  refuse(FILENAME ":" FNR ": " why)
}
# declares signals of a kind
function declare(kind, names,    i, many, list) {
  many = split(names, list, " ")
  for (i = 1; i <= many; i++)
    signal[list[i]]
  if (many)
    heading = heading "." kind " " names "\n"
}
# the name of a transition in the graph, by its label
function edge_of(label,    base, number) {
  base = label
  sub(/\/[0-9]+$/, "", base)
  if (label ~ /[ \t#{}<>]/)
    refuse_line("`" label "` is no name of a .g file")
  if (base ~ /[-+~]$/ && !(substr(base, 1, length(base) - 1) in signal))
    refuse_line("`" label "` is an edge of a signal that -v inputs, outputs and internal don't name")
  if (base !~ /[-+~]$/ && !(base in dummy)) {
    dummy[base]
    dummies = dummies " " base
  }
  while (label in used)
    label = base "/" ++number
  used[label]
  return label
}
# reads a set into `places_of`, and returns how many members it has
function read_set(text, places_of,    i, many) {
  gsub(/[{}]/, "", text)
  many = split(text, places_of, /, /)
  for (i = 1; i <= many; i++) {
    if (places_of[i] ~ /[*]/)
      refuse_line("a weight or a number of tokens above 1: ask for a net of class plain,safe")
    if (!(places_of[i] in is_place))
      refuse_line("expected a place")
  }
  return many
}
BEGIN {
  declare("inputs", inputs)
  declare("outputs", outputs)
  declare("internal", internal)
}
{ sub(/\r$/, "") }
/^[.]type (PN|LPN)$/ && section == "" { section = $1; next }
/^[.](places|transitions|flows)$/ && section != "" && section != "end" { section = $1; next }
section == ".places" && /^[A-Za-z0-9_]+$/ { is_place[$1]; next }
section == ".transitions" {
  name = label = $0
  if (match($0, /\[label="[^"]*"\]$/)) {
    label = substr($0, RSTART + 8, RLENGTH - 10)
    name = substr($0, 1, RSTART - 1)
  }
  edge[name] = edge_of(label)
  next
}
section == ".flows" && match($0, /: [{][^{}]*[}] -> [{][^{}]*[}]$/) {
  name = substr($0, 1, RSTART - 1)
  if (!(name in edge))
    refuse_line("expected a transition")
  split(substr($0, RSTART + 2), sides, " -> ")
  takes = read_set(sides[1], taken)
  puts = read_set(sides[2], put)
  if (takes + puts == 0)
    refuse_line("`" name "` has no place, so no line of a .g file holds it")
  for (i = 1; i <= takes; i++)
    graph = graph taken[i] " " edge[name] "\n"
  for (i = 1; i <= puts; i++)
    graph = graph edge[name] " " put[i] "\n"
  next
}
section == ".flows" && /^[.]initial_marking [{][^{}]*[}]$/ {
  many = read_set(substr($0, 18), marked)
  for (i = 1; i <= many; i++)
    marking = marking " " marked[i]
  section = "end"
  next
}
{ refuse_line("expected a net, as regions writes it") }
END {
  if (failed)
    exit 1
  if (section != "end")
    refuse("net2g.awk: the net ends before `.initial_marking`")
  if (dummies != "")
    heading = heading ".dummy" dummies "\n"
  printf ".model net\n%s.graph\n%s.marking {%s }\n.end\n", heading, graph, marking
}
