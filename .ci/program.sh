# Read in by `mortxalde`, `.ci/run` and tests, which have set `top`, the repository's top. The browser's program is kept at
# `$program`, and beside it its mark: the checksum of all that it was built from, and the version of the kit that built it.
# So a program whose sources changed, went or came is stale, whatever their dates are.
program=$top/out/browser_app
mark=$program.built-from
build_log=$top/out/build.log
lock=$top/out/lock
# Where the kit leaves what it builds.
made=$top/crates/browser_app/out/browser_app

# `browser_app` and the crates that it stands on, by crates.txt.
program_crates() {
  awk '
    { sub(/#.*/, ""); split($0, side, ":"); split(side[1], word, " ") }
    word[1] != "" { below[word[1]] = side[2] }
    END {
      todo[count = 1] = "browser_app"
      while (count) {
        crate = todo[count--]
        if (!(crate in below) || crate in seen) continue
        seen[crate]
        print crate
        last = split(below[crate], deps, " ")
        for (at = 1; at <= last; at++) todo[++count] = deps[at]
      }
    }
  ' "$top/crates.txt"
}

# The checksum of crates.txt, HANDLES and all files of these crates.
sources_sum() (
  cd "$top" || exit 1
  shopt -s globstar nullglob
  LC_ALL=C
  files=(crates.txt HANDLES)
  for crate in $(program_crates); do
    for file in "crates/$crate"/{src,specs,proofs}/**; do
      if [ -f "$file" ]; then files+=("$file"); fi
    done
  done
  read -r sum _ < <(sha256sum "${files[@]}" 2>/dev/null | sha256sum)
  echo "$sum"
)

# What `rt version` prints, read in less time where the kit has it in a file.
kit_version() {
  local rt version
  rt=$(readlink -f "$(command -v rt)") || return 1
  if [ -f "${rt%/*}/../KIT-ID" ]; then
    read -r version <"${rt%/*}/../KIT-ID"
    echo "$version"
  else
    rt version
  fi
}

# Whether the program is built from what stands here now, by the kit that is on the PATH, if one is.
program_is_ready() {
  local sum version now
  [ -x "$program" ] && [ -f "$mark" ] && read -r sum version <"$mark" || return 1
  [ "$sum" = "$(sources_sum)" ] || return 1
  now=$(kit_version) || return 0
  [ "$version" = "$now" ]
}

# Waits until no other script here builds the program or runs the gate, as long as this one runs; on systems without flock
# the kit's own locks keep two builds apart.
lock_program() {
  mkdir -p "$top/out" && exec 9>"$lock" || return 1
  command -v flock >/dev/null || return 0
  flock -n 9 && return 0
  echo "$1: waiting for another script here that builds the program" >&2
  flock 9
}

# Keeps what the kit has just built from the sources of this checksum.
keep_program() {
  [ -n "$1" ] && [ "$1" = "$(sources_sum)" ] || return 1
  mkdir -p "$top/out" && rm -f "$mark" &&
    cp "$made" "$program.$$" && mv "$program.$$" "$program" &&
    echo "$1 $(kit_version)" >"$mark.$$" && mv "$mark.$$" "$mark"
}

# How many crates are proved side by side: one a processor, where each has 3 GB of memory.
side_by_side() {
  local processors gigabytes
  processors=$(nproc)
  gigabytes=$(awk '/^MemAvailable:/ { print int($2 / 1000000) }' /proc/meminfo)
  if [ $((3 * processors)) -gt "$gigabytes" ]; then processors=$((gigabytes / 3)); fi
  echo $((processors > 0 ? processors : 1))
}

# Tells how many crates are done, from what `rt all check` prints.
tell_progress() {
  local all done=0 crate
  all=$(program_crates | wc -l)
  grep --line-buffered '^== ' | while read -r _ crate; do
    [ "$crate" = summary ] && continue
    done=$((done + 1))
    echo "$1: $done of $all crates done" >&2
  done
}

# Proves the program's crates side by side, those first that others stand on, then builds the program and keeps it.
build_program() (
  sum=$(sources_sum)
  jobs=$(side_by_side)
  echo "$1: proving and building the program, $jobs crates at a time, which takes some minutes the first time" >&2
  cd "$top/crates/browser_app" || exit 1
  rt all check --jobs "$jobs" </dev/null 2>&1 9>&- | tee "$build_log" | tell_progress "$1"
  [ "${PIPESTATUS[0]}" -eq 0 ] || exit 1
  # A run on no input ends with the status of a refused script, once the program is built.
  rt run -- one </dev/null >>"$build_log" 2>&1 9>&-
  [ $? -eq 5 ] && keep_program "$sum"
)
