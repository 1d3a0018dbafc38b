# What ./metarun, ./check and the tests know of release/, to be read by bash's `source` with `here` set to the
# repository's top, and `built_as` to the path of each file that was built here. Both programs lie in one tar file,
# since they share much; that and the library for C are compressed by xz. Each released file has a line in
# release/sums: its name, the sha256 of its bytes, the sum of the sources that it was proved from, and the
# toolchain's line.
releases=$here/release
sums=$releases/sums

# The packed file that each released file lies in.
declare -A packed_in=([metarun]=programs.tar.xz [metalog]=programs.tar.xz [libms_c.a]=libms_c.a.xz)

# The crate that each released file is built from.
declare -A crate_of=([metarun]=metarun [metalog]=metalog [libms_c.a]=ms_c)

# Reads which crates each crate stands on, as crates.txt lists them: those of the repository, and the
# toolchain's.
declare -A libraries=() of_kit=()
read_libraries() {
  local line name library
  while IFS= read -r line; do
    case $line in '#'* | '') continue ;; esac
    name=${line%%[ :]*}
    libraries[$name]= of_kit[$name]=std
    for library in ${line#*:}; do
      if [ -d "$here/crates/$library" ]; then libraries[$name]+=" $library"; else of_kit[$name]+=" $library"; fi
    done
  done < "$here/crates.txt"
}

# Lists a crate and all that it stands on in `crates`, lowest first, each once.
crates=()
list_below() {
  local library
  case " ${crates[*]} " in *" $1 "*) return ;; esac
  for library in ${libraries[$1]}; do list_below "$library"; done
  crates+=("$1")
}

# Finds the files that the crate in this folder is made of.
sources() { find . -name out -prune -o -type f \( -name '*.rt' -o -name '*.antt' \) "$@"; }

# Sums up in `sum` what each listed crate is made of, with all that it stands on, so that any edit changes the sum.
declare -A sum=()
sum_up() {
  local name library summed
  for name in "${crates[@]}"; do
    [ -z "${sum[$name]-}" ] || continue
    summed=$({
      for library in ${libraries[$name]}; do echo "$library ${sum[$library]}"; done
      cd "$here/crates/$name" && sources -print0 | LC_ALL=C sort -z | xargs -0 sha256sum
    } | sha256sum)
    sum[$name]=${summed%% *}
  done
}

# Prints the sha256 of a file's bytes.
bytes_of() {
  local summed
  summed=$(sha256sum < "$1") && echo "${summed%% *}"
}

# Prints column N of the line that release/sums has of a file: 2 its bytes, 3 its sources, 4 the toolchain.
told() { awk -v name="$1" -v column="$2" '$1 == name { for (at = 1; at < column; at++) sub(/^[^ ]+ +/, ""); if (column < 4) print $1; else print }' "$sums"; }

# Prints what an xz file holds, by xz or by python3; 3 says that neither is there.
expand() {
  if command -v xz > /dev/null; then
    xz -dc "$1" 2> /dev/null
  elif command -v python3 > /dev/null; then
    python3 -c 'import lzma, shutil, sys; shutil.copyfileobj(lzma.open(sys.argv[1]), sys.stdout.buffer)' "$1" 2> /dev/null
  else
    return 3
  fi
}

# Unpacks a released file to a path; 2 says that the packed file doesn't have it, 3 that nothing here expands it.
unpack() {
  local packed=$releases/${packed_in[$1]} ended
  case $packed in
    *.tar.xz)
      expand "$packed" | tar -xOf - "$1" > "$2" 2> /dev/null
      ended=("${PIPESTATUS[@]}")
      [ "${ended[0]}" -eq 0 ] || return "${ended[0]}"
      [ "${ended[1]}" -eq 0 ] || return 2
      ;;
    *) expand "$packed" > "$2" ;;
  esac
}

# Unpacks a released file to a path and prints what is true of it: `fits` says that it has the bytes that release/sums
# names and was proved from this tree's sources, `missing` that it or its line isn't there, `older` that it was proved
# from other sources, `damaged` that its bytes are others, `packed` that nothing here can unpack it. Expects sum_up.
state_of() {
  local file=$1 to=$2
  if [ ! -f "$releases/${packed_in[$file]}" ] || [ ! -f "$sums" ] || [ -z "$(told "$file" 2)" ]; then
    echo missing
  elif [ "$(told "$file" 3)" != "${sum[${crate_of[$file]}]}" ]; then
    echo older
  else
    unpack "$file" "$to"
    case $? in
      0) if [ "$(bytes_of "$to")" = "$(told "$file" 2)" ]; then echo fits; else echo damaged; fi ;;
      2) echo missing ;;
      3) echo packed ;;
      *) echo damaged ;;
    esac
  fi
}

# Says in words what a state means for whoever reads it.
said_of() {
  case $2 in
    missing) echo "release/ has no $1" ;;
    older) echo "$1 of release/ was proved from other sources than this tree's" ;;
    damaged) echo "$1 of release/ is damaged: its bytes are not those that release/sums names" ;;
    packed) echo "$1 of release/ can't be unpacked: neither xz nor python3 is on PATH" ;;
    foreign) echo "$1 of release/ has other bytes than what was proved here" ;;
  esac
}

# Sums up the sources of all that is released.
sum_released() {
  local file
  read_libraries
  for file in "${!built_as[@]}"; do list_below "${crate_of[$file]}"; done
  sum_up
}

# Compares each released file with the one that was proved and built here, and says how many are the same.
compare_release() {
  local file state unpacked well=0 bad=0
  unpacked=$(mktemp) || return
  for file in "${!built_as[@]}"; do
    state=$(state_of "$file" "$unpacked")
    [ "$state" != fits ] || cmp -s "$unpacked" "${built_as[$file]}" || state=foreign
    if [ "$state" = fits ]; then
      echo "ok: $file of release/ is the file that was proved and built here, byte for byte"
      well=$((well + 1))
    else
      echo "FAILED: $(said_of "$file" "$state"): run ./check --release, and commit release/"
      bad=$((bad + 1))
    fi
  done
  rm -f "$unpacked"
  echo "$well passed, $bad failed"
  [ "$bad" -eq 0 ]
}

# Writes the release anew from what was built here, with a line in release/sums for each file. Expects sum_up.
release_all() {
  local file room
  room=$(mktemp -d) || return
  for file in "${!built_as[@]}"; do cp "${built_as[$file]}" "$room/$file" || return; done
  mkdir -p "$releases" || return
  tar -C "$room" --format=ustar --sort=name --mtime=@0 --owner=0 --group=0 --numeric-owner --mode=755 -cf - metalog metarun |
    xz --x86 --lzma2=preset=9e,lc=4,pb=0 -c > "$releases/programs.tar.xz" || return
  xz -9e -c "$room/libms_c.a" > "$releases/libms_c.a.xz" || return
  for file in "${!built_as[@]}"; do
    echo "$file $(bytes_of "$room/$file") ${sum[${crate_of[$file]}]} $(rt version)"
  done | LC_ALL=C sort > "$sums" && rm -r "$room"
}
