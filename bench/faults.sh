#!/bin/sh
# Refuses each request for memory of a run in turn, and fails each read and each write in turn, a few bytes at a time:
#   bench/faults.sh [COMMAND ..]
# For each command, all of them where none is named, it prints how many requests were refused, and, with reads and writes of 1, 3 and
# 4,096 bytes, how many reads and writes were failed, and how those runs ended. A refused request has to end with 5 and nothing
# written, or, where the run can do without, with 0 and all written. A failed read has to end with 3 and nothing written; a failed
# write with 4, and nothing written after it. What the run writes where nothing fails is compared with what it writes without all
# this. The declarations, the tables and the texts are made in each run, so their requests for memory are among those that are
# refused, and in `recheck` those of the tables that are read.
#
# A library that is loaded before the program stands in for the C library's calls. At each request, read or write it lets a copy of
# the process go on that is refused, waits for how that ends, and goes on itself. That takes minutes: a write of one byte is a copy.
# The status is 0 where all ended as they have to, 1 where one didn't, and 125 where the program or the library couldn't be built.
set -u

. "$(dirname "$0")/programs.sh"

built ciderlater --version
folder=$(mktemp -d) || exit 125
trap 'rm -rf "$folder"' EXIT

cat > "$folder/faults.c" <<'END'
#define _GNU_SOURCE
#include <dlfcn.h>
#include <errno.h>
#include <stdio.h>
#include <stdlib.h>
#include <string.h>
#include <sys/mman.h>
#include <sys/wait.h>
#include <unistd.h>

/* What is failed, the most bytes of a read or write, and where this process is: in the run, or in a copy that was refused. */
static enum { NOTHING, MEMORY, READS, WRITES } failed;
static size_t step = 1u << 20;
static int in_copy, ready, within;
static off_t taken;
static unsigned long tried, whole, wrong, all;

/* The bytes that were written, which a copy shares with the run that waits for it. */
static unsigned long *written;

static void *(*next_malloc)(size_t);
static void *(*next_realloc)(void *, size_t);
static void (*next_free)(void *);

__attribute__((constructor)) static void begin(void)
{
    const char *what = getenv("FAULTS"), *bytes = getenv("STEP"), *most = getenv("WHOLE");
    next_malloc = (void *(*)(size_t))dlsym(RTLD_NEXT, "malloc");
    next_realloc = (void *(*)(void *, size_t))dlsym(RTLD_NEXT, "realloc");
    next_free = (void (*)(void *))dlsym(RTLD_NEXT, "free");
    written = mmap(0, sizeof *written, PROT_READ | PROT_WRITE, MAP_SHARED | MAP_ANONYMOUS, -1, 0);
    if (bytes)
        step = strtoul(bytes, 0, 10);
    if (most)
        all = strtoul(most, 0, 10);
    if (what)
        failed = !strcmp(what, "memory") ? MEMORY : !strcmp(what, "reads") ? READS : WRITES;
    ready = 1;
}

/* Whether a copy that was refused ended as it has to: with the status and nothing written after what was, which is nothing but at
   a write; or, at a request for memory, with 0 and all written. */
static int is_right(int end, int status, unsigned long before)
{
    if (!WIFEXITED(end))
        return 0;
    if (failed == MEMORY && WEXITSTATUS(end) == 0 && *written == all) {
        whole++;
        return 1;
    }
    return WEXITSTATUS(end) == status && *written == before && (failed == WRITES || before == 0);
}

/* Whether this call is to fail: in a copy of the process, whose end the process waits for. */
static int fails(int status)
{
    int end;
    pid_t copy;
    unsigned long before = *written;
    if (in_copy || within)
        return 0;
    within = 1;
    copy = fork();
    if (copy == 0) {
        in_copy = 1;
        within = 0;
        return 1;
    }
    tried++;
    if (copy < 0 || waitpid(copy, &end, 0) != copy || !is_right(end, status, before))
        wrong++;
    *written = before;
    within = 0;
    return 0;
}

void *malloc(size_t size)
{
    if (!ready)
        return next_malloc ? next_malloc(size) : 0;
    if (failed == MEMORY && fails(5)) {
        errno = ENOMEM;
        return 0;
    }
    return next_malloc(size);
}

void *realloc(void *old, size_t size)
{
    if (failed == MEMORY && fails(5)) {
        errno = ENOMEM;
        return 0;
    }
    return next_realloc(old, size);
}

/* A copy gives nothing back, so that it shares the pages of the run. */
void free(void *old)
{
    if (!in_copy && next_free)
        next_free(old);
}

ssize_t read(int file, void *into, size_t size)
{
    ssize_t count;
    if (failed == READS && fails(3)) {
        errno = EIO;
        return -1;
    }
    count = pread(file, into, size < step ? size : step, taken);
    if (count > 0)
        taken += count;
    return count;
}

static ssize_t put(int file, const void *bytes, size_t size)
{
    ssize_t (*next_write)(int, const void *, size_t) = (ssize_t (*)(int, const void *, size_t))dlsym(RTLD_NEXT, "write");
    if (file != 1)
        return in_copy ? (ssize_t)size : next_write(file, bytes, size);
    if (failed == WRITES && fails(4)) {
        errno = EIO;
        return -1;
    }
    if (size > step)
        size = step;
    *written += size;
    return in_copy ? (ssize_t)size : next_write(file, bytes, size);
}

ssize_t write(int file, const void *bytes, size_t size) { return put(file, bytes, size); }
ssize_t __write(int file, const void *bytes, size_t size) { return put(file, bytes, size); }

__attribute__((destructor)) static void end(void)
{
    const char *name = getenv("COUNTS");
    FILE *counts;
    if (in_copy || !name)
        return;
    within = 1;
    counts = fopen(name, "w");
    if (counts) {
        fprintf(counts, "%lu %lu %lu\n", tried, whole, wrong);
        fclose(counts);
    }
}
END
if ! log=$(gcc -O1 -shared -fPIC -fno-builtin -o "$folder/faults.so" "$folder/faults.c" -ldl 2>&1); then
    printf '%s\n' "$log" >&2
    exit 125
fi

result=0

# How many, with commas.
counts() {
    printf '%s' "$1" | rev | sed 's/.../&,/g; s/,$//' | rev
}

# Fails in turn what is named, with this step, of a run of the command over the input, and tells how many there were and how they
# ended.
fail_each() {
    FAULTS=$1 STEP=$2 WHOLE=$bytes COUNTS=$folder/counts LD_PRELOAD=$folder/faults.so "$program" $command \
        < "$input" > "$folder/got" 2> "$folder/said"
    status=$?
    read -r tried whole wrong < "$folder/counts" || { tried=0 whole=0 wrong=1; }
    rm -f "$folder/counts"
    case $1 in
        memory) what="requests for memory refused: $(counts $((tried - whole - wrong))) ended with 5 and nothing written, $(counts "$whole") with 0 and all written" ;;
        reads) what="reads failed, with steps of $2: $(counts $((tried - wrong))) ended with 3 and nothing written" ;;
        writes) what="writes failed, with steps of $2: $(counts $((tried - wrong))) ended with 4 and nothing written after it" ;;
    esac
    [ "$1 $tried" = 'reads 0' ] || printf '%s: %s %s\n' "$command" "$(counts "$tried")" "$what"
    if [ $status -ne 0 ] || ! cmp -s "$folder/whole" "$folder/got" || [ "$wrong" -ne 0 ]; then
        printf '%s: %s of %s ended as they must not; the run itself with %s\n' "$command" "$wrong" "$tried" $status >&2
        result=1
    fi
}

processor
if [ $# -eq 0 ]; then
    set -- query tables types settings instructions builder 'synth 7' recheck
fi
for command in "$@"; do
    input=$folder/input
    case $command in
        query) cp "$top/examples/first.txt" "$input" ;;
        recheck) { "$program" tables < /dev/null; printf '// Queries.\n'; cat "$top/examples/first.txt"; } > "$input" ;;
        *) : > "$input" ;;
    esac
    if ! "$program" $command < "$input" > "$folder/whole"; then
        printf '%s: no such run\n' "$command" >&2
        result=1
        continue
    fi
    bytes=$(wc -c < "$folder/whole")
    printf '%s: %s bytes read, %s written\n' "$command" "$(counts "$(wc -c < "$input")")" "$(counts "$bytes")"
    fail_each memory 1048576
    for step in 1 3 4096; do fail_each reads $step; done
    for step in 1 3 4096; do fail_each writes $step; done
done
exit $result
