#!/bin/sh
# Runs a built plater again and again; in run n its n-th request for memory is refused.
#
#     tools/refuse_memory.sh PROGRAM COMMAND TEXT [FIRST [STEP]]
#
# COMMAND is run, slice or demo, TEXT a file for standard input (for demo: the number). n goes from FIRST (1) by STEP (1) until a run makes
# fewer than n requests. Each run must end within 60 seconds: with status 0, a whole output and nothing said, or with status 6 and nothing
# written, or, where the output was begun, a beginning of what a run with ample memory writes. What `run` writes with workers, or several
# sessions, depends on the order of turns, so there only its last line is looked at, and a beginning must be empty. The tool prints how
# often it saw each end, and ends with 1 where a run ended otherwise. It needs a C compiler and glibc.
set -u
program=$(readlink -f "$1") command=$2 text=$3 n=${4:-1} step=${5:-1}
folder=$(mktemp -d)
trap 'rm -rf "$folder"' EXIT
cat > "$folder/refuse.c" <<'C'
#include <errno.h>
#include <fcntl.h>
#include <stdatomic.h>
#include <stdlib.h>
#include <unistd.h>

void *__libc_malloc(size_t size);
void *__libc_realloc(void *old, size_t size);

static atomic_long requests;
static long refused;

__attribute__((constructor)) static void begin(void) {
    const char *n = getenv("REFUSE");
    refused = n ? atol(n) : 0;
}

static int is_refused(void) {
    if (refused == 0 || atomic_fetch_add(&requests, 1) + 1 != refused) return 0;
    int file = open(getenv("REFUSED"), O_WRONLY | O_CREAT, 0600);
    if (file >= 0) close(file);
    errno = ENOMEM;
    return 1;
}

void *malloc(size_t size) { return is_refused() ? 0 : __libc_malloc(size); }
void *realloc(void *old, size_t size) { return is_refused() ? 0 : __libc_realloc(old, size); }
C
cc -O1 -fPIC -shared -o "$folder/refuse.so" "$folder/refuse.c" || exit 2

# Runs the program with its request number $1 refused; 0: none.
once() {
    rm -f "$folder/refused"
    if [ "$command" = demo ]; then words="demo $text"; input=/dev/null; else words=$command input=$text; fi
    REFUSE=$1 REFUSED="$folder/refused" LD_PRELOAD="$folder/refuse.so" timeout 60 "$program" $words < "$input" > "$folder/out" 2> "$folder/err"
}

# Whether the order of turns may show in what is written.
is_alone() {
    [ "$command" = slice ] || [ "$command" = demo ] || { [ "$command" = run ] && ! grep -aqE '^workers [1-8]|^[ \t]*([2-9]|1[0-6])[ \t]' "$text"; }
}

once 0 || { echo "with ample memory: status $?, $(cat "$folder/err")"; exit 2; }
cp "$folder/out" "$folder/whole"
well=0 refusals=0 cut=0 bad=0
while :; do
    once "$n"
    status=$?
    if [ ! -e "$folder/refused" ]; then break; fi
    size=$(stat -c %s "$folder/out")
    if [ $status = 0 ] && [ ! -s "$folder/err" ] && { if is_alone; then cmp -s "$folder/out" "$folder/whole"; else tail -n 1 "$folder/out" | grep -qE '^end [0-9]+ runs [0-9]+$'; fi; }; then
        well=$((well + 1))
    elif [ $status = 6 ] && [ "$size" = 0 ]; then
        refusals=$((refusals + 1))
    elif [ $status = 6 ] && is_alone && head -c "$size" "$folder/whole" | cmp -s - "$folder/out"; then
        cut=$((cut + 1))
    else
        bad=$((bad + 1))
        echo "request $n refused: status $status, $size bytes written, $(head -c 200 "$folder/err")"
    fi
    n=$((n + step))
done
echo "$((n - 1)) requests at most; $refusals runs ended with status 6 and nothing written, $cut with a beginning, $well well, $bad otherwise"
[ $bad = 0 ]
