# For ./s7 and ./build, which name the repository's folder in `top`: where the proved program is, and whether it is up to date.
# shellcheck shell=bash disable=SC2154
program=$top/crates/s7/out/s7

# the crates that the program stands on, with itself, one a line
crates_below() {
  awk -F: '
    { name = $1; sub(/ .*/, "", name); uses[name] = $2 }
    function visit(name,  list, i, n) {
      if (name in seen || !(name in uses)) return
      seen[name] = 1
      n = split(uses[name], list, " ")
      for (i = 1; i <= n; i++) visit(list[i])
      print name
    }
    END { visit("s7") }' <(grep -v '^#' "$top/crates.txt")
}

out_of_date() {
  [ -x "$program" ] || return 0
  [ -n "$(find "$top/crates.txt" "$top"/crates/*/src "$top"/crates/*/specs "$top"/crates/*/proofs \
    -type f -newer "$program" -print -quit 2>/dev/null)" ]
}
