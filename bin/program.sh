# The built program, and whether it is of the sources as they stand. bin/wblog, .ci/run and .ci/checks source this file,
# with `root` set to the top of the repository.
program=$root/crates/wb_main/out/wb_main

# Finds files that the program is made of, tests left out.
sources() {
  (cd "$root" && find crates.txt crates/*/{src,specs,proofs} -type f ! -name tests.rt ! -path '*/tests/*' "$@")
}

# A line with the checksum of each of them.
sums() {
  sources -print0 | sort -z | (cd "$root" && xargs -0 sha256sum)
}

# Which build the program is.
build() {
  stat -c 'built %y, %s bytes' "$program"
}

# Notes that the program was built of sources with these checksums.
note_build() {
  { build && printf '%s\n' "$1"; } >"$program.sources"
}

# The sources that aren't as they were when the program was built: by the checksums that were noted of this build, or
# where none were, those that are newer than the program.
changed_sources() {
  if [ "$(head -n 1 "$program.sources" 2>/dev/null)" = "$(build)" ]; then
    comm -3 <(tail -n +2 "$program.sources" | sort) <(sums | sort) | sed 's/^\t*[0-9a-f]*  //' | sort -u
  else
    sources -newer "$program"
  fi
}

# Ends the check of this name where it has no program to run: well where none could be expected, since nothing built one
# here, and badly where the gate just built one, or where the program is older than its sources.
need_program() {
  local changed
  if [ ! -x "$program" ]; then
    [ "${WBLOG_IS_BUILT:-no}" = no ] && echo "$1: skipped, since no program was built here (bin/wblog builds it)" && exit 0
    echo "$1: rt ci passed, and left no program at $program"
    exit 1
  fi
  changed=$(changed_sources)
  [ -z "$changed" ] && return
  echo "$1: the program is older than its sources (bin/wblog builds it again). Changed since:"
  echo "$changed"
  exit 1
}
