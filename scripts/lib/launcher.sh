#!/bin/sh
# The program of a package for every machine: runs the build for processors with AVX2 where this one has it, else the other.
flags=
[ ! -r /proc/cpuinfo ] || while read -r name _ rest; do
    [ "$name" != flags ] || { flags=" $rest "; break; }
done < /proc/cpuinfo
build=x86-64-v3
for it in avx2 bmi1 bmi2 f16c fma abm movbe; do
    case $flags in *" $it "*) ;; *) build=x86-64 ;; esac
done
self=$0
[ ! -L "$self" ] || self=$(readlink -f "$self")
case $self in */*) ;; *) self=./$self ;; esac
exec "${self%/*}/../lib/dmstack/$build/dmstack" "$@"
