#!/usr/bin/env bash
# Times some ten million steps of a counting loop and of a sort: by `joana run`, and by a Java machine that only interprets.
set -e
here=$(dirname "$(readlink -f "$0")")
joana=$here/../joana
natives=$here/../examples/runs
work=$(mktemp -d)
trap 'rm -rf "$work"' EXIT
"$joana" help >/dev/null # builds it, where there is none

seconds() { # WORDS: runs them three times, and prints the shortest time
  local best='' begun ended
  for _ in 1 2 3; do
    begun=$(date +%s%N)
    "$@" >"$work/shown"
    ended=$(date +%s%N)
    [ -n "$best" ] && [ $((ended - begun)) -ge "$best" ] || best=$((ended - begun))
  done
  awk -v n="$best" 'BEGIN { printf "%.2f", n / 1e9 }'
}

for program in Count Sort; do
  rm -rf "$work"/*
  mkdir "$work/classes" "$work/real"
  javac --release 8 -g:none -nowarn -Xlint:none -d "$work/classes" "$here/$program.java" "$natives/Io.java" 2>/dev/null
  javac -nowarn -Xlint:none -d "$work/real" "$here/$program.java" "$natives/real/Io.java" "$natives/real/Run.java" 2>/dev/null
  printf '%s\n' "$work/classes/Main.class" "$work/classes/Io.class" >"$work/list"
  printf 'levels = ["all"]\nentry = "Main.main()V"\n[sources]\n"Io.next()I" = "all"\n[sinks]\n"Io.show(I)V" = "all"\n' >"$work/policy"
  echo 'steps = 10000000' >"$work/run"
  ours=$(seconds "$joana" run "$work/list" "$work/policy" "$work/run")
  cp "$work/shown" "$work/ours"
  theirs=$(seconds java -Xint -cp "$work/real" Run)
  cmp -s "$work/shown" "$work/ours" || { echo "$program: what is shown differs" >&2; exit 1; }
  started=$(seconds java -Xint -version 2>/dev/null)
  awk -v p="$program" -v a="$ours" -v b="$theirs" -v c="$started" 'BEGIN { printf "%s: joana %s s, java -Xint %s s, of which %s s to start; ratio %.1f\n", p, a, b, c, a / b }'
done
