# Puts the old names back into a net, a system or a state graph, as regions writes them. Reads the file with the remarks `#name NEW OLD`
# and `#state NEW OLD`, then the file to change:
#     awk -f examples/old-names.awk c.sg c.net
# In a net with labels (`.type LPN`, what `split` writes) the labels in brackets are put back, and the names of transitions stay.
# A line of another form is an error: its number on standard error, and status 1.
function refuse(why) {
  print why > "/dev/stderr"
  failed = 1
  exit 1
}
function refuse_line() {
  refuse(FILENAME ":" FNR ": expected a net, a system or a state graph, as regions writes it")
}
function old(kind, name) {
  return (kind, name) in before ? before[kind, name] : name
}
# an arc of three names
function arc() {
  if (NF != 3)
    refuse_line()
  return old("state", $1) " " old("name", $2) " " old("state", $3)
}
# an entry of a section: a name, and what follows it in brackets
function entry(kind,    name, rest) {
  if (!match($0, /^[A-Za-z0-9_]+/))
    refuse_line()
  name = substr($0, 1, RLENGTH)
  rest = substr($0, RLENGTH + 1)
  if (match(rest, /^\[label="[^"]*"\]$/))
    return name "[label=\"" old("name", substr(rest, 9, length(rest) - 10)) "\"]"
  if (rest != "" && rest != "[initial]")
    refuse_line()
  return (section == ".transitions" && labelled ? name : old(kind, name)) rest
}
# a flow: the name of a transition and its two sets
function flow(    name) {
  if (!match($0, /^[A-Za-z0-9_]+: [{][^{}]*[}] -> [{][^{}]*[}]$/))
    refuse_line()
  name = $1
  sub(/:$/, "", name)
  return (labelled ? name : old("name", name)) substr($0, length(name) + 1)
}
# a line of a state graph
function graph_line(    i, text) {
  if ($1 == ".outputs") {
    text = $1
    for (i = 2; i <= NF; i++)
      text = text " " old("name", $i)
    return text
  }
  if ($0 ~ /^[.]marking [{][A-Za-z0-9_]+[}]$/)
    return ".marking {" old("state", substr($0, 11, length($0) - 11)) "}"
  return $0 ~ /^[.](state graph|end)$/ ? $0 : arc()
}
BEGIN {
  if (ARGC != 3 || ARGV[1] == ARGV[2])
    refuse("usage: awk -f old-names.awk FILE_WITH_REMARKS FILE")
}
{ sub(/\r$/, "") }
FILENAME == ARGV[1] {
  if (match($0, /^#(name|state) [A-Za-z0-9_]+ ./))
    before[substr($1, 2), $2] = substr($0, RLENGTH)
  next
}
/^[.]model lts$/ && !section && !graph { graph = 1; text = text $0 "\n"; next }
graph { text = text graph_line() "\n"; next }
/^[.]type (PN|LPN|LTS)$/ && !section { labelled = $2 == "LPN"; section = $1; text = text $0 "\n"; next }
/^[.](states|labels|arcs|places|transitions|flows)$/ && section { section = $1; text = text $0 "\n"; next }
/^[.]initial_marking [{][^{}]*[}]$/ && section == ".flows" { text = text $0 "\n"; next }
section == ".states" { text = text entry("state") "\n"; next }
section == ".labels" || section == ".transitions" { text = text entry("name") "\n"; next }
section == ".arcs" { text = text arc() "\n"; next }
section == ".flows" { text = text flow() "\n"; next }
section == ".places" && /^[A-Za-z0-9_]+$/ { text = text $0 "\n"; next }
{ refuse_line() }
END {
  if (!failed)
    printf "%s", text
  exit failed
}
