# shellcheck shell=bash
# Builds a program of a cargo package where it does not belong to its inputs. For `bin/scope-deps`
# and `compare/oracle` to source.
#
# Beside the built program a record, PROGRAM.digest, has a line `NAME DIGEST` for each of its inputs
# and one for the program itself. Where they agree cargo is not asked: a tree that is built needs no
# cargo, and nothing is written to it.

# A digest of all files in these, named from the current directory, but for what cargo built there.
# Absent ones are left out.
digest_of() { # FILE..
  find -H "$@" -name target -prune -o -type f -print0 2>/dev/null | LC_ALL=C sort -z | xargs -0 -r sha256sum | sha256sum | cut -d' ' -f1
}

# The same of one file, wherever it is.
digest_of_content() { # FILE
  sha256sum <"$1" | cut -d' ' -f1
}

# Where cargo puts what it builds of this package.
target_of() { # PACKAGE
  realpath -m -- "${CARGO_TARGET_DIR:-$1/target}"
}

# Whether the program is there, as it was built, and its record has each of these lines.
belongs() { # PROGRAM LINES
  local line
  [ -x "$1" ] && [ -r "$1.digest" ] || return 1
  while IFS= read -r line; do
    grep -qxF -- "$line" "$1.digest" || return 1
  done <<<"$2"$'\n'"program $(digest_of_content "$1")"
}

# Builds the program with these lines as its record. More words are for cargo.
build() { # NAME PACKAGE TARGET PROGRAM LINES WORD..
  local name=$1 package=$2 target=$3 program=$4 lines=$5
  shift 5
  command -v cargo >/dev/null || { echo "$name: cargo was not found, so $program cannot be built" >&2; exit 1; }
  echo "$name: building the program, $package .." >&2
  if ! cargo build --manifest-path "$package/Cargo.toml" --release --offline --quiet --bin "$program" \
    --target-dir "$target" "$@" </dev/null >&2; then
    echo "$name: the program could not be built" >&2
    exit 1
  fi
  program=$target/release/$program
  printf '%s\n' "$lines" "program $(digest_of_content "$program")" >"$program.digest"
}
