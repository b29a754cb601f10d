# stack.awk: what each exported function takes of stack, from the frames (a .su file of the compiler, read first) and the calls (its assembly), as
# `NAME BYTES AGAIN`: BYTES at most, and AGAIN more for each time that a function below it calls itself after the first; 0 where none does.
# Variables: call, the bytes that a call itself pushes; helper, the bytes allowed for a function that is not in the assembly, as memcpy.
# Exit status 1: a frame, a call by address or a circle of calls, which have no bound.
BEGIN { FS = "\t" }
FNR == 1 { file++ }
file == 1 {
  name = $1; sub(/^[^:]*:/, "", name)
  if ($3 != "static") say(name " has a frame of no fixed size")
  frame[name] = $2 + call
  next
}
/^[^ \t.#@\/]/ { name = $1; sub(/:.*/, "", name) }
/^"[^"]*":/ { name = $1; sub(/^"/, "", name); sub(/":.*/, "", name) }
/^[^ \t.#@\/]/ && name in frame { at = name }
/^\t[a-z]/ {
  to = $3; gsub(/"/, "", to); sub(/@PLT.*/, "", to); sub(/[ \t].*/, "", to)
  calls_it = $2 ~ /^(bl|blx|blr|call|callq)$/
  if (calls_it && (to ~ /^\*/ || $2 == "blr" || ($2 == "blx" && to ~ /^(r[0-9]+|lr|ip)$/))) say(at " calls by address: " $0)
  else if (to in frame || calls_it) {
    if (!(to in frame)) frame[to] = helper
    if (!((at, to) in calls)) { calls[at, to] = 1; list[at] = list[at] "\n" to }
  }
}
function say(what) { print "stack.awk: " what > "/dev/stderr"; bad = 1 }
function deepest(name,   k, n, to, most, d) {
  if (name in depth) return depth[name]
  if (name in open) { say("a circle of calls through " name); return 0 }
  open[name] = 1
  n = split(substr(list[name], 2), to, "\n")
  for (k = 1; k <= n; k++)
    if (to[k] == name) { if (frame[name] > again[name]) again[name] = frame[name] }
    else {
      d = deepest(to[k]); if (d > most) most = d
      if (again[to[k]] > again[name]) again[name] = again[to[k]]
    }
  delete open[name]
  return depth[name] = frame[name] + most
}
END {
  for (name in frame) if (name ~ /^vinderaz_/) print name, deepest(name), again[name] + 0
  exit bad
}
