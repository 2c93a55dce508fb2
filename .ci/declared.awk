# The names that antt files declare: definitions, types and constructors, not the fields of records nor what stands behind a
# `where` of its own. One line a name: NAME FILE:LINE, with `pub` behind it where others may import it.
function told(names, public,    n, i, each) {
  n = split(names, each, " ")
  for (i = 1; i <= n; i++) print each[i], FILENAME ":" FNR, public
}
FNR == 1 { block = ""; within = -1 }
/^[ \t]*(--.*)?$/ { next }
{
  match($0, /^ */)
  indent = RLENGTH
  line = substr($0, indent + 1)
  if (block != "" && indent <= within) block = ""
  if (block == "field" || block == "local") next
  if (line == "where") { block = "local"; within = indent; next }
  public = ""
  while (match(line, /^(abbrev|unfoldable|opaque|pub|private) /)) {
    if (line ~ /^pub /) public = "pub"
    line = substr(line, RLENGTH + 1)
  }
  if (line ~ /^(data|record) /) {
    name = line
    sub(/^(data|record) /, "", name)
    sub(/[ ({].*$/, "", name)
    told(name, public)
    block = line ~ /^data / ? "constructor" : "field"
    within = indent
    seen = public
    next
  }
  if (line ~ /^(use|mod|module|where|unfolding|let|infix|infixl|infixr|mutual|syntax)( |$)/) next
  if (match(line, /^[^:(){}=;,]+/)) {
    name = substr(line, 1, RLENGTH)
    rest = substr(line, RLENGTH + 1)
    while (match(rest, /^[ ]*([(][^()]*[)]|[{][^{}]*[}])[ ]*/)) rest = substr(rest, RLENGTH + 1)
    if (rest ~ /^:([ \t]|$)/) told(name, block == "constructor" ? seen : public)
  }
}
