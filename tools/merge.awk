# Reads a list of words and prints a state graph in which runs with the same labels, in any order, lead to one state:
#     awk -f tools/merge.awk log.words > log.sg
# Remarks `#name NEW OLD` follow `.end`, where nothing is read, so examples/old-names.awk can put the old names back.
# A label that isn't 1 to 255 letters, digits and _ is an error: its line on standard error, and status 1.
function refuse(why) {
  print FILENAME ":" FNR ": " why > "/dev/stderr"
  failed = 1
  exit 1
}
function state(    i, key) {
  for (i = 1; i <= labels; i++)
    if (count[i] > 0)
      key = key i ":" count[i] " "
  if (!(key in number))
    number[key] = states++
  return "s" number[key]
}
BEGIN {
  initial = state()
  text = ".model log\n.state graph\n"
}
{ sub(/\r$/, "") }
/^[ \t]*#name / { remarks = remarks $0 "\n" }
/^[ \t]*#/ { next }
{
  split("", count)
  from = initial
  for (k = 1; k <= NF; k++) {
    if ($k !~ /^[A-Za-z0-9_]+$/ || length($k) > 255)
      refuse("`" $k "` is no label")
    if (!($k in label))
      label[$k] = ++labels
    count[label[$k]]++
    to = state()
    if (!((from, $k) in arc))
      text = text from " " $k " " to "\n"
    arc[from, $k] = to
    from = to
  }
}
END {
  if (!failed)
    printf "%s.marking {%s}\n.end\n%s", text, initial, remarks
}
