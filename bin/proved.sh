# shellcheck shell=bash
# What `bin/library` and `bin/programs` share: whether what was made belongs to the sources beside
# it, and the proof with its progress. For these two to source. They set:
#
#   name      stands before messages
#   what      what is made, in words
#   roots     the crates that it is made of; those that they need are found in crates.txt
#   made      the file made of each, below `target`
#   record    the file below `target` that says from what they were made
#   output    what rt leaves in the folder of a crate of `roots`, with * for the crate's name
#   make_one  a function that has rt make this, called there
#
# The repository is `root`. What is made comes into a `target` in `place`, the repository or another
# folder. The toolchain works in the repository, or for another place in a copy of its crates, which
# is outside: it refuses links and crates that crates.txt does not list wherever they are below the
# repository.

# How long it takes from nothing where the machine does nothing else. Measured for the library: 4
# minutes and 28 seconds of processor time.
minutes=5

say() {
  echo "$name: $1" >&2
}

stop() {
  say "$1"
  exit 1
}

# The crates of crates.txt that are needed, each after those that it needs itself.
needed_crates() {
  awk -v roots="$roots" '
    { sub(/#.*/, ""); at = index($0, ":") }
    at { split(substr($0, 1, at - 1), words, " "); needs[words[1]] = substr($0, at + 1) }
    function visit(crate,   list, count, i) {
      if (!(crate in needs) || (crate in seen)) return
      seen[crate]
      count = split(needs[crate], list, " ")
      for (i = 1; i <= count; i++) visit(list[i])
      print crate
    }
    END { count = split(roots, list, " "); for (i = 1; i <= count; i++) visit(list[i]) }' "$root/crates.txt"
}

# The folders of a crate that its proof reads. What the toolchain leaves in `out` is none of them.
parts_of() { # CRATE
  local part
  for part in src specs proofs; do
    [ ! -d "$root/crates/$1/$part" ] || echo "crates/$1/$part"
  done
}

# A digest of the files that these names, below the current directory, hold.
files_digest() {
  find -H "$@" -type f -print0 | LC_ALL=C sort -z | xargs -0 sha256sum | sha256sum | cut -d' ' -f1
}

sources_digest() {
  local crate
  # shellcheck disable=SC2046  # a crate's name has no blanks
  (cd "$root" && files_digest crates.txt $(for crate in $(needed_crates); do parts_of "$crate"; done))
}

# shellcheck disable=SC2086  # names without blanks
made_digest() {
  (cd "$place/target" && files_digest $made)
}

# The identity of the toolchain, or nothing where there is none.
toolchain() {
  rt version 2>/dev/null
}

recorded() {
  sed -n "s/^$1 //p" "$place/target/$record"
}

# Why what was made cannot be used, or nothing where it can. Without a toolchain, the one that made
# it counts as the right one.
why_stale() {
  local file tool
  for file in $made; do
    [ -r "$place/target/$file" ] || { echo "is missing"; return; }
  done
  [ -r "$place/target/$record" ] || { echo "has no record of what it was made from"; return; }
  tool=$(toolchain)
  if [ "$(recorded sources)" != "$(sources_digest)" ]; then
    echo "was made from other sources"
  elif [ -n "$tool" ] && [ "$(recorded toolchain)" != "$tool" ]; then
    echo "was made by another toolchain, $(recorded toolchain)"
  elif [ "$(recorded made)" != "$(made_digest)" ]; then
    echo "was changed after $name made it"
  fi
}

announcement() { # WHY
  echo "$what $1; proving it takes about $minutes minutes from nothing (log: $place/target/$name.log)"
}

# Prints a line for each crate that the toolchain says it has proved now, with the crate's place
# among those needed: of one that it proved before and that has not changed since it says nothing.
show_progress() {
  local line crate='' order all
  order=$(needed_crates)
  all=$(wc -l <<<"$order")
  while IFS= read -r line; do
    case $line in
    "crate "*": modules "*) crate=${line#crate } crate=${crate%%:*} ;;
    "logic=proved "*) say "proved $crate, $(grep -nx -- "$crate" <<<"$order" | cut -d: -f1) of $all" ;;
    esac
  done
}

# One at a time, so that no other run takes what this one has half made.
lock() {
  command -v flock >/dev/null || return 0
  exec 9>"$place/target/proving.lock"
  flock -n 9 || { say "waiting for another run that is proving"; flock 9; }
}

# Copies the crates to a folder outside the repository, which goes when the script ends.
copy_crates() {
  local crate part
  work=$(mktemp -d) || stop "no folder can be made for a copy of the crates"
  trap 'rm -rf "$work"' EXIT
  cp "$root/crates.txt" "$work" || stop "$work cannot be written"
  for crate in "$root"/crates/*/; do
    crate=$(basename "$crate")
    mkdir -p "$work/crates/$crate"
    for part in $(parts_of "$crate"); do
      cp -R "$root/$part" "$work/crates/$crate" || stop "$work cannot be written"
    done
  done
}

make_all() {
  local crate
  for crate in $roots; do
    (cd "$work/crates/$crate" && make_one) || return
  done
}

# Puts what the toolchain left for each crate where `made` says.
take() {
  local crate file
  # shellcheck disable=SC2086  # names without blanks
  set -- $made
  for crate in $roots; do
    file=$place/target/$1
    shift
    mkdir -p "$(dirname "$file")" && cp "$work/crates/$crate/${output//\*/$crate}" "$file" || stop "$file cannot be written"
  done
}

# Proves and makes it, unless another run has done so meanwhile.
prove() { # WHY
  local before log=$place/target/$name.log
  mkdir -p "$place/target" 2>/dev/null && [ -w "$place/target" ] || stop "$what $1, and $place/target cannot be written"
  command -v rt >/dev/null || stop "$what $1, and rt, the toolchain's command, was not found"
  lock
  [ -n "$(why_stale)" ] || return 0
  say "$(announcement "$1")"
  before=$(sources_digest)
  work=$root
  [ "$place" = "$root" ] || copy_crates
  if ! make_all </dev/null 2>&1 | tee "$log" | show_progress; then
    grep -v '^rt: chose\|^rt: .*: begins with\|^rt: note:' "$log" | grep -m 5 '^fn .*: no\|error\|^rt: ' >&2
    stop "$what could not be made; the toolchain's log is $log"
  fi
  take
  [ "$before" = "$(sources_digest)" ] || stop "the sources were changed while they were proved; run $name again"
  printf '%s\n' "sources $before" "toolchain $(toolchain)" "made $(made_digest)" >"$place/target/$record"
}
