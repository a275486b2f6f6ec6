#!/usr/bin/env bash
# Compiles the C programs of this folder against the proved archive and runs them: example.c on every lesson, whose outside answer it must write,
# and on one as a program in C++; calls.c on every lesson; why.c on every lesson whose reasons stand beside it, as NAME.why beside NAME.bin; edges.c
# and reasons.c; damage.c on some lessons. The last three lend buffers between guard pages, and their own code is under an address sanitizer where
# the compiler has one (the archive is compiled without). The archive may have no memory of its own and call nothing but memcpy, memmove and memset.
# EVERY=1 damages states of every lesson and not of every tenth. MORE=FOLDER plays the lessons of another folder too (NAME.bin, with NAME.out and,
# if it is there, NAME.why). Run it anywhere in the repository; exit status 1 if anything differs.
set -uo pipefail
[ -z "${MORE:-}" ] || MORE=$(readlink -f "$MORE")
cd "$(dirname "$(readlink -f "$0")")/.." || exit 2

compiler=
if [ "$(uname -m)" = x86_64 ]; then
  for name in cc clang gcc; do command -v "$name" >/dev/null && compiler=$name && break; done
fi
if [ -z "$compiler" ]; then
  echo "c/test.sh: SKIPPED: $(uname -m) has no C compiler for x86-64 here (the archive is for x86-64)"
  exit 0
fi

work=$(mktemp -d)
trap 'rm -rf "$work"' EXIT
(cd crates/server && rt lib) >"$work/log" 2>&1 || { tail -n 20 "$work/log"; echo 'c/test.sh: no archive'; exit 1; }
archive=crates/server/out/libserver.a

if command -v nm >/dev/null && command -v size >/dev/null; then
  calls=$(nm -u "$archive" | awk '$1 == "U" { print $2 }' | sort -u | tr '\n' ' ')
  kept=$(size "$archive" | awk 'NR > 1 { bytes += $2 + $3 } END { print bytes + 0 }')
  if [ "$calls" != 'memcpy memmove memset ' ] || [ "$kept" != 0 ]; then
    echo "c/test.sh: the archive calls ${calls:-nothing }and keeps $kept bytes between calls; c/waxglimmer.h says memcpy, memmove, memset and none"
    exit 1
  fi
fi

build() { # NAME OPTIONS..: one program
  local name=$1
  shift
  $compiler -std=c99 -O2 -Wall -Wextra -Werror -pthread "$@" -o "$work/$name" "c/$name.c" "$archive"
}
build example || exit 1
build calls || exit 1
build why || exit 1
sanitizer='between guard pages, the C code under an address sanitizer'
watch=(-g -fsanitize=address,undefined -fno-sanitize-recover=all)
if ! { build damage "${watch[@]}" && build edges "${watch[@]}" && build reasons "${watch[@]}"; } 2>/dev/null; then
  sanitizer='between guard pages, without a sanitizer: the compiler has none'
  build damage && build edges && build reasons || exit 1
fi

lessons=0 failed=0 explained=0
for name in edges reasons; do
  "$work/$name" || { echo "c/test.sh: c/$name.c failed"; failed=$((failed + 1)); }
done
if command -v c++ >/dev/null; then
  one=(tests/lessons/*.bin)
  c++ -Wall -Wextra -Werror -o "$work/plus" -x c++ c/example.c -x none "$archive" || exit 1
  if ! "$work/plus" <"${one[0]}" | cmp -s - "${one[0]%.bin}.out"; then
    echo "c/test.sh: c/example.c in C++ differs from the outside answer on ${one[0]}"
    failed=$((failed + 1))
  fi
fi
shopt -s nullglob
for lesson in tests/lessons/*.bin ${MORE:+"$MORE"/*.bin}; do
  lessons=$((lessons + 1))
  if ! "$work/example" <"$lesson" | cmp -s - "${lesson%.bin}.out"; then
    echo "c/test.sh: c/example.c differs from the outside answer on $lesson"
    failed=$((failed + 1))
  fi
  "$work/calls" <"$lesson" || { echo "c/test.sh: c/calls.c failed on $lesson"; failed=$((failed + 1)); }
done
[ "$lessons" -gt 0 ] || { echo 'c/test.sh: no lessons'; exit 1; }
for right in tests/*/*.why ${MORE:+"$MORE"/*.why}; do
  explained=$((explained + 1))
  if ! "$work/why" <"${right%.why}.bin" | cmp -s - "$right"; then
    echo "c/test.sh: c/why.c gives other reasons than $right"
    failed=$((failed + 1))
  fi
done
[ "$explained" -gt 0 ] || { echo 'c/test.sh: no reasons'; exit 1; }

damaged=0
for lesson in tests/lessons/*.bin; do
  damaged=$((damaged + 1))
  [ $((damaged % ${EVERY:-10})) = 1 ] || [ "${EVERY:-10}" = 1 ] || continue
  if ! "$work/damage" <"$lesson" >"$work/said" 2>&1; then
    tail -n 20 "$work/said"
    echo "c/test.sh: c/damage.c failed on $lesson"
    failed=$((failed + 1))
  else
    grep -h '^damage' "$work/said" | tail -n 1
  fi
done
[ "$failed" = 0 ] || { echo "c/test.sh: $failed failed"; exit 1; }
echo "c/test.sh: $lessons lessons as the outside answers have them, the reasons of $explained; damaged states tried $sanitizer"
