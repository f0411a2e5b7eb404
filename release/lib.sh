# The program of a source folder `root`: one that was built and proved there, or the released one. ./bpftap, ./install and ./test source
# this file; others call one of its functions, as `sh release/lib.sh program_path`.
#
# release/files lists what is released: the mode, the path here, and the path below a prefix. What ./build makes is in a folder `out`.
# release/SHA256SUMS has the checksums of the archives and of the page. Its comments have the key of the sources, the toolchain that built them, and
# the checksum of each file of an archive.
main=bpftap-x86_64-linux.tar.xz sums=release/SHA256SUMS page=bpftap.html
# A program is unpacked and noted in `out`, or here if that is read-only. A relative path would be another folder at each call; a home that does not
# exist is not made.
case ${HOME-} in /*) cache=$HOME/.cache/bpftap home=$HOME ;; *) cache= home=/ ;; esac
case ${XDG_CACHE_HOME-} in /*) cache=$XDG_CACHE_HOME/bpftap home=${XDG_CACHE_HOME%/*}/ ;; esac
[ -d "$home" ] || cache=
# What of glibc starts a program. A clone may be shared with a machine that has an older one, or none.
loader=/lib64/ld-linux-x86-64.so.2
[ -e "$loader" ] || loader=
# What a user sets for archives of his own is not for those of release/.
unset XZ_OPT XZ_DEFAULTS TAR_OPTIONS

# One line, and a status that is none of the program's own.
refuse() { printf 'bpftap: %s\n' "$*" >&2; exit 125; }

# A value of SHA256SUMS, as `sources`; the checksum of a file of release/; the checksums of what an archive has.
said() { sed -n "s/^# $1 //p" "$root/$sums" 2>/dev/null; }
sum_of() { sed -n "s/  $1\$//p" "$root/$sums" 2>/dev/null; }
listed() { said "in $1:"; }

# The archives with a program for this machine, the one to be tried first before the other: a static one needs no C library.
archives() {
  case $(uname -sm) in
    'Linux x86_64') set -- "$main" bpftap-x86_64-linux-static.tar.xz ;;
    'Linux aarch64') set -- bpftap-aarch64-linux.tar.xz ;;
    *) set -- ;;
  esac
  for archive; do [ ! -f "$root/release/$archive" ] || echo "$archive"; done
}

# The SHA-256 of standard input. A file is not named, since sha256sum marks the line of a name with a newline or a backslash.
checksum() { sha256sum | cut -c 1-64; }

# Prints the names of the files that words of `find` name, or what shows that none was changed: their paths, inodes, sizes and times. busybox's `find`
# does not print those, and `by_stat` says so. This shell ends with them.
by_stat=
names() { exec find -L "$@" -print 2>/dev/null; }
looks() {
  [ -n "$by_stat" ] || exec find -L "$@" -printf '%p %i %s %T@ %C@\n' 2>/dev/null
  exec find -L "$@" -exec stat -L -c '%n %i %s %y %z' -- {} + 2>/dev/null
}

# What is printed of the crates' files, and of MORE. Tests and proofs are left out: they change neither what the program does nor what is promised of it.
texts() ( # names | looks [MORE..]
  of=$1
  shift
  cd -- "$root" && "$of" "$@" crates/*/src crates/*/specs -type f ! -path 'crates/test_*'
)

# The released files that a build makes, and those that no build makes, such as a header.
made() { cut -d ' ' -f 2 -- "$root/release/files" | grep -E '^(.*/)?out/'; }
others() { while read -r _ from _; do case $from in out/* | */out/*) ;; *) echo "$from" ;; esac; done <"$root/release/files"; }

# The key of the sources. What an editor keeps beside them, such as `.lib.rt.swp`, is left out.
sources_key() (
  export LC_ALL=C
  cd -- "$root" || exit
  { cat release/files
    grep '^[a-z]' crates.txt | grep -v '^test_'
    { others && texts names | grep -E '/[^.#/][^/]*\.(rt|antt)$' | sort; } | tr '\n' '\0' | xargs -0 sha256sum --
  } | checksum
)

# Whether something is released, of the sources with this key.
is_release_of() { [ "$1" = "$(said sources)" ] && set -- "$root"/release/*.tar.xz && [ -f "$1" ]; }

# Shows that no file of the sources and of the release was changed since this was noted, and first of a program if one is named.
state() { texts looks "$@" crates.txt release $(others); }

# Whether a folder is a link that another user made, or below one: what is written there would go where that user wants it. Links of the caller, of root and
# of the owner of this script are followed.
is_led_away() { # FOLDER
  step=$1
  while [ -n "$step" ] && [ "$step" != "$root" ]; do
    [ ! -L "$step" ] || [ -z "$(find "$step" -maxdepth 0 ! -type l $(of_others) 2>&1)" ] || return 0
    step=${step%/*}
  done
  false
}

# Sets `place` to the real path of `out` or the cache: who can write to a folder above what a link leads to can change that.
real_place() { # FOLDER
  place=$1
  [ "$1" != "$root/out" ] || [ -L "$1" ] || return 0
  ! is_led_away "$1" || return
  place=$(cd -P -- "$1" 2>/dev/null && printf '%s\n' "$PWD")
  [ -n "$place" ]
}

# Whether the caller may make something in a folder, or make that: if the nearest one that exists is his own, or as /tmp. Root makes none in the
# home or the clone of another user, who could not write there then.
may_make() { # FOLDER
  ! is_led_away "$1" || return
  nearest=$1
  until [ -e "$nearest" ] || [ -L "$nearest" ] || [ -z "$nearest" ]; do nearest=${nearest%/*}; done
  [ -O "${nearest:-/}" ] || [ -k "${nearest:-/}" ]
}

# Whether others can write to none of these paths, and to none of the folders that they are in. A folder may be as /tmp, where nobody can replace
# what is not his own. A link counts as open. The clone's own folders are not asked: who can write there can change this script. `whose` has more tests of
# `find`.
whose=
is_closed() { # PATH..
  for path; do
    shift
    while [ -n "$path" ] && [ "$path" != "$root" ]; do
      set -- "$@" "$path"
      path=${path%/*}
    done
  done
  [ -z "$(find "$@" -maxdepth 0 '(' -perm /022 ! '(' -type d -perm -1000 ')' $whose ')' 2>&1)" ]
}

# Whether only the caller, root, or the owner of this script can have changed a file in `out` or the cache; and whether that is so of all files in
# a folder.
is_ours() ( # PATH
  whose=$(of_others)
  is_closed "$1"
)
are_ours() ( # FOLDER
  is_ours "$1" && [ -z "$(find "$1" '(' -perm /022 $(of_others) ')' 2>&1)" ]
)
of_others() {
  by=-uid
  [ -z "$by_stat" ] || by=-user
  echo "-o ! $by $(id -u) ! $by 0 ! $by $(stat -L -c %u -- "$root/release/lib.sh")"
}

# Sets `program` to the path of this folder's program, and `origin` to how it came there. Both are noted in the folder that has it, `out` or the
# cache, with the state, so that the next call need not read the files. A note is taken only if nobody else can have written it.
find_program() {
  ! find_noted || return 0
  noted=$(state)
  if [ -z "$noted" ]; then
    by_stat=y
    ! find_noted || return 0
    noted=$(state)
  fi
  choose_program
  note_program || :
}
find_noted() {
  for folder in "$root/out" "$cache"; do
    real_place "$folder" && [ -O "$place" ] && [ -O "$place/noted" ] && { IFS= read -r name && IFS= read -r origin; } 2>/dev/null <"$place/noted" || continue
    case /$name in */../*) continue ;; esac
    program=$place/$name
    is_closed "$place/noted" "$program" || continue
    { printf '%s\n' "$name" "$origin" && uname -sm && state "$program" $loader; } | cmp -s - "$place/noted" && return
  done
  false
}

# Notes the program, with the sources as they were before it was chosen.
note_program() (
  umask 022
  cd -- "$place" && [ -O . ] && new=$(mktemp noted.XXXXXX) || exit
  { printf '%s\n' "$name" "$origin" && uname -sm && (looks "$program" $loader) && printf '%s\n' "$noted"; } >"$new" && mv -fT -- "$new" noted && exit
  rm -f -- "$new"
) 2>/dev/null

# Chooses by the content of the sources: what was built of them, else what was released of them, else what ./build makes of them now.
choose_program() {
  key=$(sources_key)
  if ! is_built && ! is_release_of "$key"; then
    [ ! -e "$root/out" ] || { real_place "$root/out" && is_ours "$place"; } || refuse "nothing in $root/out is run, since others can change it: remove it, or run chmod -R go-w on it"
    "$root/build"
    status=$?
    [ $status -lt 128 ] || exit $status
    [ $status -eq 0 ] || exit 125
    key=$(sources_key)
    is_built || is_release_of "$key" || refuse 'a source was edited meanwhile: the next call builds it'
  fi
  if is_built; then name=built/$key/bin/bpftap origin='built and proved here'; else choose_released; fi
  program=$place/$name
}

is_built() { real_place "$root/out" && [ -x "$place/built/$key/bin/bpftap" ] && is_ours "$place/built/$key/bin/bpftap"; }

choose_released() {
  build='./build proves and builds one, with the toolchain'
  [ -n "$(archives)" ] || refuse "no released program is for $(uname -sm): $build"
  for archive in $(archives); do
    unpack "$archive"
    name=released/$sum/bin/bpftap
    case $archive in "$main") origin='released, reproduced by the gate' ;; *) origin="released, of $archive" ;; esac
    answer=$("$place/$name" --version 2>&1) && return
    case $answer in *'not UTF-8'*) refuse "the program runs in no folder whose path is not UTF-8, as that of $place: rename the folder" ;; esac
  done
  case $archive in
    "$main") refuse "the released program does not run here: that for x86-64 needs glibc 2.34 or later, and a processor of x86-64-v2. $build" ;;
    *-static.tar.xz) refuse "neither released program runs here: those for x86-64 need a processor of x86-64-v2. $build" ;;
    *) refuse "the released program does not run here. $build" ;;
  esac
}

# The checksums of a folder's files. A link is none.
contents() (cd -- "$1" && find . -type f -print0 | LC_ALL=C sort -z | xargs -0 sha256sum | sed 's,^\([0-9a-f]*  \)\./,\1,')

# Compares a file of release/ with its checksum.
is_undamaged() { # NAME
  [ "$(checksum <"$root/release/$1")" = "$(sum_of "$1")" ] || refuse "release/$1 is damaged: its SHA-256 is not the one in $sums"
}

# Chooses again, for those who copy what is beside the program: sets `made` to its folder, of which every file, and the page, is compared with its
# checksum.
choose_all() {
  choose_program
  [ ! -f "$root/release/$page" ] || is_undamaged "$page"
  made=${program%/bin/bpftap}
  case $made in "$place"/built/*) ;; *) return 0 ;; esac
  are_ours "$made" && contents "$made" | cmp -s - "$made.sums" || refuse "$made is not what ./build left: remove it, and run ./build"
}

# Prints the path of this folder's program.
program_path() { find_program && printf '%s\n' "$program"; }

# Unpacks an archive, and sets `place` to where, `out` or the cache, and `unpacked` to the folder. Nothing in it is run before every checksum was
# right.
unpack() { # ARCHIVE
  archive=$1
  is_undamaged "$archive"
  sum=$(sum_of "$archive")
  { may_make "$root/out" && unpack_in "$root/out"; } || unpack_in "$cache" || unpack_in "$root/out" || {
    { command -v xz || command -v dpkg-deb || command -v python3; } >/dev/null || refuse "release/$1 is packed by xz, which is not here: install xz-utils"
    answer=$(tar_in "$root/release/$1" 2>&1 >/dev/null) || refuse "release/$1 cannot be unpacked here: $(printf '%s\n' "$answer" | tail -n 1)"
    refuse "no program can be put in $root/out or ${cache:-a cache}: set XDG_CACHE_HOME to a folder that only you can write to"
  }
  [ "$(contents "$unpacked")" = "$(listed "$archive")" ] || refuse "$unpacked is not what $sums says: remove it"
}

# Prints the tar archive in a packed one. A small container may have no xz: dpkg has its own for packages, so it is given one, and Python has one too.
tar_in() { # ARCHIVE
  if command -v xz >/dev/null; then
    xz -dc -- "$1"
  elif command -v dpkg-deb >/dev/null; then
    { printf '!<arch>\n' && of_package debian-binary 4 && echo 2.0 && of_package control.tar 0 && of_package data.tar.xz "$(wc -c <"$1")" && cat -- "$1"
    } | dpkg-deb --fsys-tarfile -
  else
    python3 -c 'import lzma, shutil, sys; shutil.copyfileobj(lzma.open(sys.stdin.buffer), sys.stdout.buffer)' <"$1"
  fi
}
of_package() { printf '%-16s%-12s%-6s%-6s%-8s%-10s`\n' "$1" 0 0 0 100644 "$2"; } # NAME SIZE

# Prints the folder of what an archive has.
unpacked_path() { unpack "$1" && printf '%s\n' "$unpacked"; }

# Unpacks in `out` or the cache, unless that was done, and says whether the program is there and others cannot change it. The folder is there at once
# or not at all, since another call may be doing the same.
unpack_in() { # FOLDER
  [ -n "$1" ] || return
  [ -d "$1/released/$sum" ] || (
    umask 022
    may_make "$1" && mkdir -p -- "$1/released" && real_place "$1" && is_ours "$place/released" && cd -- "$place/released" || exit
    new=$(mktemp -d "$sum.XXXXXX") || exit
    tar_in "$root/release/$archive" | tar -xf - -C "$new" && mv -T -- "$new" "$sum"
    rm -rf -- "$new"
  ) 2>/dev/null
  real_place "$1" && unpacked=$place/released/$sum && [ -x "$unpacked/bin/bpftap" ] && is_ours "$unpacked/bin/bpftap"
}

# Keeps what a build has left, if the sources still have the key that they had when it began.
keep() { # KEY
  built=$root/out/built
  [ "$1" = "$(sources_key)" ] || refuse 'a source was edited meanwhile: the next call builds it'
  umask 022
  rm -rf -- "$built" "$root/out/noted"
  while read -r mode from to; do
    install -D -m "$mode" -- "$root/$from" "$built/new/$to" || exit
  done <"$root/release/files"
  contents "$built/new" >"$built/$1.sums"
  mv -T -- "$built/new" "$built/$1"
}

# Prints whether the released files are those that were built here. If they are not, or are of other sources, the status is 1.
compare() {
  key=$(sources_key) kit=$(rt version)
  is_release_of "$key" || { echo 'the release is not of these sources: make it by ./build --release, and commit it'; return 1; }
  [ -n "$kit" ] && [ -n "$(said toolchain)" ] || { echo "no toolchain is here, or none is named in $sums"; return 1; }
  (cd -- "$root/release" && sha256sum --quiet --check SHA256SUMS) || return 1
  unpack "$main"
  if [ "$kit" != "$(said toolchain)" ]; then
    echo "the released program is not compared: it was built by $(said toolchain), and here is $kit"
  elif diff -rq --no-dereference -- "$unpacked" "$root/out/built/$key" && is_same_page && are_same_targets; then
    echo 'the released program is what these sources give'
  else
    echo 'the released program is not what these sources give'
    return 1
  fi
}
is_same_page() { [ ! -f "$root/release/$page" ] || cmp -- "$root/release/$page" "$root/out/page/$page"; }

# Whether each released program for another target is that of `./build --targets`. One that was not made here is not compared, which is printed.
are_same_targets() {
  for path in "$root"/release/*.tar.xz; do
    archive=${path##*/}
    [ "$archive" != "$main" ] || continue
    folder=${archive#bpftap-} folder=$root/out/targets/$key/${folder%.tar.xz}
    if [ ! -d "$folder" ]; then
      echo "release/$archive is not compared: ./build --targets makes its program"
    elif [ "$(contents "$folder")" != "$(listed "$archive")" ]; then
      echo "$archive has another program than $folder"
      return 1
    fi
  done
}

# Packs what is built of these sources, with the page and the programs of `./build --targets` if they are of them too, and prints what it made.
pack() {
  key=$(sources_key)
  [ -d "$root/out/built/$key" ] || refuse 'these sources are not built'
  earlier=$(cd -- "$root/release" && ls -- *.tar.xz 2>/dev/null)
  rm -f -- "$root"/release/*.tar.[gx]z "$root/release/$page"
  pack_in "$main" "$root/out/built/$key"
  for folder in "$root/out/targets/$key"/*/; do
    [ ! -d "$folder" ] || pack_in "bpftap-$(basename -- "$folder").tar.xz" "$folder"
  done
  for archive in $earlier; do
    name=${archive#bpftap-} name=${name%.tar.xz}
    [ -f "$root/release/$archive" ] || echo "bpftap: no program for $name is packed: ./build --targets makes it" >&2
  done
  [ ! -f "$root/out/page/$page" ] || install -m 644 -- "$root/out/page/$page" "$root/release/$page"
  { echo "# sources $key"
    echo "# toolchain $(rt version)"
    for path in "$root/out/targets/$key"/*/; do [ ! -f "${path%/}.by" ] || sed "s/^/# $(basename -- "$path") /" "${path%/}.by"; done
    (cd -- "$root/release" && for path in *.tar.xz *.html; do [ ! -f "$path" ] || sha256sum "$path"; done)
    for path in "$root"/release/*.tar.xz; do contents_of "$path" | sed "s/^/# in ${path##*/}: /"; done
  } >"$root/$sums"
  echo "$(du -cb -- "$root"/release/*.tar.xz | tail -n 1 | cut -f 1) bytes in archives; $sums says:"
  cat -- "$root/$sums"
}
# No filter for a processor, which would save a few percent: busybox's xz knows none.
pack_in() { # ARCHIVE FOLDER
  tar -I 'xz -T1 --check=crc32 --lzma2=preset=9e,dict=4MiB' --sort=name --mtime=@0 --owner=0 --group=0 --numeric-owner --mode=u=rwX,go=rX \
    -cf "$root/release/$1" -C "$2" . || exit
}
contents_of() ( # ARCHIVE
  new=$(mktemp -d) && tar_in "$1" | tar -xf - -C "$new" && contents "$new"
  rm -rf -- "$new"
)

case ${0##*/} in lib.sh) here=$(readlink -f -- "$0") && root=${here%/release/*} && "$@" ;; esac
