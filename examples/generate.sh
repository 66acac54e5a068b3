#!/usr/bin/env bash
# Writes a long script: `generate.sh lets N` one of N `let` lines of distinct small terms, `generate.sh sames N` one of N `same` lines over forty terms, each of which holds the one before twice. `generate.sh terms N` prints one term of many labels N times, and `generate.sh prints N` one whose text is long. `generate.sh binders N` and `generate.sh doubles N` write N lines whose terms hold the one before twice, below different binders: the first below one binder and beside it, the second below two.
set -eu
case "${1:-}" in
lets)
    # The number of the line in binary, as a tuple of `bool` and `u8`.
    awk -v n="$2" 'BEGIN {
        for (i = 1; i <= n; i++) {
            members = ""
            for (rest = i; rest > 0; rest = int(rest / 2)) members = members (rest % 2 ? " bool" : " u8")
            print "let T" i " (tuple (" substr(members, 2) "))"
        }
    }'
    ;;
sames)
    awk -v n="$2" 'BEGIN {
        print "let A0 u8"
        for (i = 1; i <= 40; i++) print "let A" i " (tuple (A" i - 1 " A" i - 1 "))"
        for (i = 1; i <= n; i++) print "same A" 1 + i % 40 " A" 1 + (7 * i) % 40
    }'
    ;;
terms)
    awk -v n="$2" 'BEGIN {
        for (i = 1; i <= n; i++) print "print (tuple (u8 bool (ref not static (tuple (u8))) (fnptr (for r) safe Rust fixed ((ref not (var 0 0 r) u8) (tuple ()))) (unsafe (for t r) (tuple ((var 0 0 t) u8)))))"
    }'
    ;;
prints)
    awk -v n="$2" 'BEGIN {
        print "let A0 u8"
        for (i = 1; i <= 13; i++) print "let A" i " (tuple (A" i - 1 " (ref not static A" i - 1 ")))"
        for (i = 1; i <= n; i++) print "print A13"
    }'
    ;;
binders)
    awk -v n="$2" 'BEGIN {
        print "let B0 (tuple ((var 0 0 t) (var 1 0 t)))"
        for (i = 1; i <= n; i++) print "let B" i " (tuple (B" i - 1 " (unsafe (for t) B" i - 1 ") (var " i " 0 t)))"
        print "flags B" n
    }'
    ;;
doubles)
    awk -v n="$2" 'BEGIN {
        print "let D0 (var 99 0 t)"
        for (i = 1; i <= n; i++) print "let D" i " (tuple ((unsafe (for t) D" i - 1 ") (unsafe (for r) D" i - 1 ")))"
        print "flags D" n
    }'
    ;;
*)
    echo "usage: generate.sh lets|sames|terms|prints|binders|doubles N" >&2
    exit 2
    ;;
esac
