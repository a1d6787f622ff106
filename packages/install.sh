#!/bin/sh
# install.sh install TREE   puts bin, include, lib and share of TREE below $DESTDIR$PREFIX (/usr/local where PREFIX is not set)
# install.sh uninstall      takes away what an install put there
#
# LIBDIR is the folder of the libraries below PREFIX, such as lib64, or the same with PREFIX before it; lib if it is not set.
#
# An install leaves a list of its files, and of the folders that it had to make. By it an upgrade and an uninstall take away
# exactly these; a folder that has something else in it stays.
set -eu
export LC_ALL=C
prefix=${PREFIX:-/usr/local}
root=${DESTDIR:-}$prefix
list=share/doc/dmclock/files

libdir=${LIBDIR:-lib}
libdir=${libdir#"$prefix"/}
case $libdir in
  /* | */ | *..*)
    echo "LIBDIR=$LIBDIR is no folder below $prefix" >&2
    exit 2
    ;;
esac

# Makes a folder below the root, with those above it, and adds each that was not there to the list.
make_folder() {
  [ -d "$root/$1" ] && return
  case $1 in
    */*) make_folder "${1%/*}" ;;
    .) ;;
    *) make_folder . ;;
  esac
  mkdir -p "$root/$1"
  chmod 755 "$root/$1"
  echo "$1/" >> "$work/folders"
}

# Takes away what is listed, the deepest first.
take_away() {
  sort -r | while read -r path; do
    case $path in
      ./) rmdir "$root" 2> /dev/null || true ;;
      */) rmdir "$root/$path" 2> /dev/null || true ;;
      *) rm -f "$root/$path" ;;
    esac
  done
}

# The file of pkg-config finds the prefix by its own place, so that what is installed may be moved. Below /usr, which is not
# moved, it names it, since pkg-config leaves out the flags that compilers know anyway.
put_pc() {
  up=$(echo "$libdir/pkgconfig" | sed 's,[^/]*,..,g')
  case $prefix in /usr) place=/usr ;; *) place="\${pcfiledir}/$up" ;; esac
  sed -e "s,^prefix=.*,prefix=$place," -e "s,^libdir=.*,libdir=\${prefix}/$libdir," "$1" > "$work/pc"
  install -m 644 "$work/pc" "$2"
}

put() {
  case $1 in
    "$libdir"/*) from=$tree/lib/${1#"$libdir"/} ;;
    *) from=$tree/$1 ;;
  esac
  case $1 in
    *.so) ln -sfn "$(readlink "$from")" "$root/$1" ;;
    *.pc) put_pc "$from" "$root/$1" ;;
    bin/* | *.so.*) install -m 755 "$from" "$root/$1" ;;
    *) install -m 644 "$from" "$root/$1" ;;
  esac
}

install_tree() {
  work=$(mktemp -d)
  trap 'rm -rf "$work"' EXIT
  (cd "$tree" && find bin include lib share -type f -o -type l) | sed "s,^lib/,$libdir/," > "$work/files"
  echo "$list" >> "$work/files"
  if [ -f "$root/$list" ]; then cp "$root/$list" "$work/old"; else : > "$work/old"; fi
  grep '/$' "$work/old" > "$work/folders" || true
  sed 's,/[^/]*$,,' "$work/files" | sort -u > "$work/parents"
  while read -r folder; do make_folder "$folder"; done < "$work/parents"
  # Until all is done the list has what is there of both versions.
  sort -u "$work/files" "$work/folders" > "$work/new"
  sort -u "$work/new" "$work/old" > "$root/$list"
  while read -r path; do [ "$path" = "$list" ] || put "$path"; done < "$work/files"
  sort -u "$work/old" | comm -23 - "$work/new" | take_away
  install -m 644 "$work/new" "$root/$list"
}

case ${1:-} in
  install)
    tree=$2
    install_tree
    ;;
  uninstall)
    if [ ! -f "$root/$list" ]; then
      echo "dmclock is not installed below $root" >&2
      exit 1
    fi
    files=$(cat "$root/$list")
    echo "$files" | take_away
    ;;
  *)
    sed -n '2,3s/^# //p' "$0" >&2
    exit 2
    ;;
esac
