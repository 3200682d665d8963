# Chooses the program that stands for the sources as they are. Sourced by firsim, build and the scripts of this folder, which have set
# `top`, the folder of the repository.

# The lines of crates.txt of the crates that both programs stand on, themselves included.
lines_below() {
  awk '
    { sub(/#.*/, "") }
    /:/ { split($0, sides, ":"); split(sides[1], words, " "); on[words[1]] = sides[2]; line[words[1]] = $0 }
    END {
      todo[1] = "firsim"; todo[2] = "plain_trace"; last = 2; seen["firsim"]; seen["plain_trace"]
      for (at = 1; at <= last; at++) {
        count = split(on[todo[at]], names, " ")
        for (k = 1; k <= count; k++) if (names[k] in on && !(names[k] in seen)) { seen[names[k]]; todo[++last] = names[k] }
      }
      for (at = 1; at <= last; at++) print line[todo[at]]
    }' "$top/crates.txt" | LC_ALL=C sort
}

# The names of these crates, and the folders that hold their sources, where they have them.
names_below() { lines_below | sed 's/[: ].*//'; }
folders_below() { names_below | sed 's|.*|crates/&/src crates/&/specs crates/&/proofs|' | paste -sd ' '; }

# One sum over what the programs are made of: these lines, and the names and bytes of all files in these folders.
sum_of_sources() {
  (
    cd "$top" || exit
    { lines_below; find $(folders_below) -type f -print0 2> /dev/null | LC_ALL=C sort -z | xargs -0 sha256sum; } | sha256sum | cut -d' ' -f1
  )
}

# What a line of prebuilt/SOURCES says.
recorded() { sed -n "s/^$1 //p" "$top/prebuilt/SOURCES" 2> /dev/null; }

sum_of_file() { sha256sum "$1" | cut -d' ' -f1; }

# Whether the own build of a program was made after the last change of each source. The time of a change can't be set, as that of a file can.
own_is_newer() {
  (
    cd "$top" && [ -x "crates/$1/out/$1" ] &&
      [ -z "$(find crates.txt $(folders_below) -cnewer "crates/$1/out/$1" -print -quit 2> /dev/null)" ]
  )
}

# Whether the own build stands for the sources: it is newer, or it was, and sources and program have the sums that they had then.
own_stands() {
  local own=$top/crates/$1/out/$1 kept=$top/out/$1.own
  [ -x "$own" ] || return 1
  if own_is_newer "$1"; then
    write_kept "$kept" "$(sum_of_sources) $(sum_of_file "$own")"
    return 0
  fi
  [ -r "$kept" ] && [ "$(cat "$kept")" = "$(sum_of_sources) $(sum_of_file "$own")" ]
}

# Whether the prebuilt program is one of these sources.
prebuilt_stands() {
  [ -r "$top/prebuilt/$1.gz" ] && [ -n "$(recorded sources)" ] && [ "$(recorded sources)" = "$(sum_of_sources)" ]
}

# Writes a text into a file of out/, whole or not at all; where out/ can't be written nothing is kept.
write_kept() { { mkdir -p "$top/out" && printf '%s\n' "$2" > "$1.$$" && mv -f "$1.$$" "$1"; } 2> /dev/null; }

# What the program rests on beside the sources: the kit, and the linker and the C library that it has; a word each where there is no kit.
kit_line() { rt version 2> /dev/null || echo none; }
kit_folder() { local rt; rt=$(readlink -f "$(command -v rt)") && echo "${rt%/bin/*}"; }
linker_line() { "$(kit_folder)/toolchain/bin/ld.lld" --version 2> /dev/null || echo unknown; }
library_line() { grep -aom1 'GNU C Library ([^)]*)' "$(kit_folder)/toolchain/lib/libc.so.6" 2> /dev/null || echo unknown; }

# Unpacks a prebuilt program into a file, where it is the recorded one and runs on this machine.
unpack() {
  gzip -dc "$top/prebuilt/$1.gz" > "$2" && chmod 755 "$2" || return 1
  if [ "$(sum_of_file "$2")" != "$(recorded "$1")" ]; then
    why="prebuilt/$1.gz doesn't hold the program that prebuilt/SOURCES records"
    return 1
  fi
  local said
  said=$("$2" < /dev/null 2>&1 > /dev/null)
  if [ $? -ge 126 ] || [ -n "$said" ]; then
    why="this machine doesn't run the prebuilt program, which wants x86-64 Linux with glibc 2.34 or newer"
    return 1
  fi
}

# All that a choice depends on, with the time of each file's last change: behind two lines with what was chosen and the folders of the sources.
state() {
  printf '%s\n' "$2" "$3"
  cd "$top" && find crates.txt prebuilt/SOURCES "prebuilt/$1.gz" "crates/$1/out/$1" $3 -type f -printf '%p %C@\n' 2> /dev/null
}

# Sets `program` to the path of the one that stands for the sources, or `why` to the reason why none does. Where out/ can't be written it
# unpacks into a folder of its own, `room`, which the caller removes.
choose() {
  local kept=$top/out/$1.choice folders= seen
  program= why= room=
  [ -r "$kept" ] && { read -r program && read -r folders; } < "$kept"
  if [ -n "$program" ] && [ -x "$top/$program" ] && state "$1" "$program" "$folders" | cmp -s - "$kept"; then
    program=$top/$program
    return 0
  fi
  # taken before the sums, so that the next call sees a change that comes meanwhile
  folders=$(folders_below)
  seen=$(state "$1" "" "$folders")
  if own_stands "$1"; then
    program=crates/$1/out/$1
  elif ! prebuilt_stands "$1"; then
    why="prebuilt/ holds no program of the sources as they are"
    return 1
  elif mkdir -p "$top/out" 2> /dev/null && [ -w "$top/out" ]; then
    unpack "$1" "$top/out/.$1.$$" && mv -f "$top/out/.$1.$$" "$top/out/$1" || { rm -f "$top/out/.$1.$$"; return 1; }
    program=out/$1
  else
    room=$(mktemp -d) && unpack "$1" "$room/$1" || return 1
    program=$room/$1
    return 0
  fi
  write_kept "$kept" "$program$seen"
  program=$top/$program
}

# The same, and builds where none stands; ends with status 70 where that can't be done.
choose_or_build() {
  choose "$1" && return 0
  if ! command -v rt > /dev/null; then
    echo "firsim: $why, and the Rattle kit, whose command rt builds it from source, isn't on this machine's PATH" >&2
    exit 70
  fi
  # of several calls at once one builds, and the others wait for it
  mkdir -p "$top/out" && exec 9> "$top/out/build.lock" || exit 70
  command -v flock > /dev/null && flock 9
  if ! choose "$1"; then
    echo "firsim: $why, so ./build makes it from source" >&2
    "$top/build" >&2 < /dev/null || exit 70
    choose "$1" || { echo "firsim: $why, and none was built" >&2; exit 70; }
  fi
  exec 9>&-
}
