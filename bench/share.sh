#!/bin/sh
# Instructions of one share, beside C with 128-bit integers (gcc -O3). Run in the repository's root.
# On x86-64 they are counted by callgrind. Elsewhere name a gcc for x86-64 in CC and a qemu-x86_64 of user mode in QEMU: every
# instruction of the share's own functions is then logged, one to a line, and counted.
set -eu
tests/tools/static share_c
mkdir -p target/bench
${CC:-gcc} -O3 -static -o target/bench/share bench/share.c target/staticlib/libshare_c.a
functions() {
    if [ "$1" = lib ]; then echo '(share_amounts|share::.*)'; else echo '(share_in_c|__udivti3|__umodti3|__udivmodti4)'; fi
}
count() {
    if [ -z "${QEMU:-}" ]; then
        if [ "$1" = lib ]; then f=share_amounts; else f=share_in_c; fi
        valgrind --tool=callgrind --callgrind-out-file=/dev/null --toggle-collect=$f target/bench/share "$2" "$3" "$1" 2>&1 |
            sed -n 's/.*Collected : \([0-9]*\).*/\1/p'
    else
        ranges=$(${NM:-nm} -S target/bench/share | grep -E " [tT] $(functions "$1")\$" | awk '{printf "%s0x%s+0x%s", (NR > 1 ? "," : ""), $1, $2}')
        "$QEMU" -singlestep -d exec,nochain -dfilter "$ranges" -D target/bench/log target/bench/share "$2" "$3" "$1" >/dev/null
        grep -c '^Trace' target/bench/log
        rm -f target/bench/log
    fi
}
echo "shape n library C"
for shape in random two equal one tied distances digits; do
    for n in 1 5 77 477 513; do
        test "$(${QEMU:-} target/bench/share $n $shape lib)" = "$(${QEMU:-} target/bench/share $n $shape c)" || { echo "differ at $n $shape"; exit 1; }
        echo "$shape $n $(count lib $n $shape) $(count c $n $shape)"
    done
done
