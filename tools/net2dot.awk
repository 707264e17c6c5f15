# Draws a net by Graphviz: reads a net file as regions writes it, and prints a graph for dot.
#     regions synthesize none FILE | awk -v dir=TB -f tools/net2dot.awk | dot -Tsvg > net.svg
# Places are circles with their names, and their tokens as up to four dots, or a number. Transitions are boxes with their labels, broken
# after 16 characters. Weights are at the arrows. A place that a transition takes from and puts on alike has one edge with two heads.
# -v dir=TB draws from top to bottom; LR (default), BT and RL are the other directions.
# A line of another form is an error: its number on standard error, and status 1.
function refuse(why) {
  print why > "/dev/stderr"
  failed = 1
  exit 1
}
function refuse_line() {
  refuse(FILENAME ":" FNR ": expected a net, as regions writes it")
}
function quoted(text) {
  gsub(/["\\]/, "\\\\&", text)
  return text
}
# the text in lines of up to 16 characters, which end after a _ or a blank where there is one
function broken(text,    at, lines) {
  while (length(text) > 16) {
    for (at = 16; at > 4 && substr(text, at, 1) !~ /[_ ]/; at--)
      continue
    if (at == 4)
      at = 16
    lines = lines quoted(substr(text, 1, at)) "\\n"
    text = substr(text, at + 1)
  }
  return lines quoted(text)
}
# reads a set into `places_of` in order and `weights`, and returns how many members it has
function read_set(text, places_of, weights,    i, many, parts) {
  split("", weights)
  gsub(/[{}]/, "", text)
  many = split(text, places_of, /, /)
  for (i = 1; i <= many; i++) {
    if (places_of[i] !~ /^[1-9][0-9]*[*]/)
      places_of[i] = "1*" places_of[i]
    split(places_of[i], parts, "*")
    places_of[i] = parts[2]
    if (!(parts[2] in tokens) || parts[2] in weights)
      refuse_line()
    weights[parts[2]] = parts[1]
  }
  return many
}
function edge(from, to, weight, options) {
  if (weight != 1)
    options = options (options ? ", " : "") "label=\"" weight "\""
  graph = graph "  \"" quoted(from) "\" -> \"" quoted(to) "\"" (options ? " [" options "]" : "") ";\n"
}
# the edges of a flow
function flow(name, takes, puts,    i, many, place, in_order, taken, out_order, put) {
  many = read_set(takes, in_order, taken)
  read_set(puts, out_order, put)
  for (i = 1; i <= many; i++) {
    place = in_order[i]
    if (place in put && put[place] == taken[place]) {
      edge("place " place, "transition " name, taken[place], "dir=both")
      delete put[place]
    } else
      edge("place " place, "transition " name, taken[place])
  }
  for (i = 1; i in out_order; i++)
    if (out_order[i] in put)
      edge("transition " name, "place " out_order[i], put[out_order[i]])
}
# the tokens of a place as dots, or as a number
function drawn(number) {
  return number > 4 ? number "\\n" : substr("&#9679;&#9679;&#9679;&#9679;", 1, 7 * number) (number > 0 ? "\\n" : "")
}
BEGIN {
  if (dir == "")
    dir = "LR"
  if (dir !~ /^(LR|TB|BT|RL)$/)
    refuse("net2dot.awk: -v dir is LR, TB, BT or RL")
}
{ sub(/\r$/, "") }
/^[.]type (PN|LPN)$/ && section == "" { section = $1; next }
/^[.](places|transitions|flows)$/ && section != "" && section != "end" { section = $1; next }
section == ".places" && /^[A-Za-z0-9_]+$/ { place[++places] = $1; tokens[$1] = 0; next }
section == ".transitions" {
  name = label = $0
  if (match($0, /\[label="[^"]*"\]$/)) {
    label = substr($0, RSTART + 8, RLENGTH - 10)
    name = substr($0, 1, RSTART - 1)
  }
  is_transition[name]
  graph = graph "  \"transition " quoted(name) "\" [shape=box, label=\"" broken(label) "\"];\n"
  next
}
section == ".flows" && match($0, /: [{][^{}]*[}] -> [{][^{}]*[}]$/) {
  name = substr($0, 1, RSTART - 1)
  if (!(name in is_transition))
    refuse_line()
  split(substr($0, RSTART + 2), sides, " -> ")
  flow(name, sides[1], sides[2])
  next
}
section == ".flows" && /^[.]initial_marking [{][^{}]*[}]$/ {
  many = read_set(substr($0, 18), marked, numbers)
  for (i = 1; i <= many; i++)
    tokens[marked[i]] = numbers[marked[i]]
  section = "end"
  next
}
{ refuse_line() }
END {
  if (failed)
    exit 1
  if (section != "end")
    refuse("net2dot.awk: the net ends before `.initial_marking`")
  print "digraph net {\n  rankdir=" dir ";"
  for (i = 1; i <= places; i++)
    print "  \"place " place[i] "\" [shape=circle, label=\"" drawn(tokens[place[i]]) place[i] "\"];"
  print graph "}"
}
