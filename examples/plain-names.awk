# Renames what is no plain name in a state graph: labels such as a+, a- and a+/1, and states such as s[1]. Prints the state graph:
#     awk -f examples/plain-names.awk examples/celement.sg > c.sg
# A name that another label, or another state, already has gets a further _. Remarks after .end, where nothing is read, keep the old
# names: `#name NEW OLD` of a label, `#state NEW OLD` of a state. examples/old-names.awk puts them back.
# A line of another form is an error: its number on standard error, and status 1.
function refuse(line_number, why) {
  print FILENAME ":" line_number ": " why > "/dev/stderr"
  failed = 1
  exit 1
}
function plain(kind, old,    name) {
  if (old ~ /^[A-Za-z0-9_]+$/)
    return old
  name = old
  if (kind == "name") {
    gsub(/[+]/, "_plus", name)
    gsub(/-/, "_minus", name)
    gsub(/~/, "_toggle", name)
  }
  gsub(/[^A-Za-z0-9_]/, "_", name)
  while ((kind, name) in used)
    name = name "_"
  used[kind, name]
  return name
}
function renamed(kind, old) {
  if (!((kind, old) in new)) {
    new[kind, old] = plain(kind, old)
    if (new[kind, old] != old)
      remarks = remarks "#" kind " " new[kind, old] " " old "\n"
  }
  return new[kind, old]
}
# the words of a line before its first #
function words_of(text) {
  sub(/#.*/, "", text)
  return split(text, word, " ")
}
FNR < NR { refuse(FNR, "expected one file") }
{
  sub(/\r$/, "")
  line[NR] = $0
  many = words_of($0)
}
ended || many == 0 { next }
!begun {
  if (word[1] == ".graph")
    refuse(NR, "a signal transition graph: let petrify's write_sg make its state graph")
  if (word[1] !~ /^[.]/)
    refuse(NR, "expected a heading, or `.state graph`")
  if (many == 2 && word[1] == ".state" && word[2] == "graph")
    begun = 1
  next
}
word[1] == ".end" { ended = 1; next }
word[1] == ".marking" {
  state = line[NR]
  sub(/#.*/, "", state)
  if (marking || !match(state, /[{].*[}][ \t]*$/))
    refuse(NR, "expected one `.marking {STATE}`")
  gsub(/^[^{]*[{][ \t]*|[ \t]*[}][ \t]*$/, "", state)
  if (state == "" || state ~ /[ \t]/)
    refuse(NR, "expected one `.marking {STATE}`")
  marking = NR
  initial = state
  used["state", initial]
  next
}
many != 3 || word[1] ~ /^[.]/ || /^[^#]*[{}]/ { refuse(NR, "expected an arc of three names") }
{
  arc[NR]
  used["state", word[1]]
  used["name", word[2]]
  used["state", word[3]]
}
END {
  if (failed)
    exit 1
  if (!ended || !marking)
    refuse(NR, !begun ? "no `.state graph`" : !ended ? "no `.end`" : "no `.marking`")
  for (i = 1; i <= NR; i++) {
    if (i in arc) {
      words_of(line[i])
      arc_text = renamed("state", word[1]) " " renamed("name", word[2]) " " renamed("state", word[3])
      rest = match(line[i], /[ \t]*#/) ? substr(line[i], RSTART) : ""
      unchanged = arc_text == (word[1] " " word[2] " " word[3])
      print (unchanged ? line[i] : arc_text rest)
    } else if (i == marking && renamed("state", initial) != initial)
      print ".marking {" renamed("state", initial) "}"
    else
      print line[i]
  }
  printf "%s", remarks
}
