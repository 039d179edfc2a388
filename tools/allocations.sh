#!/usr/bin/env bash
# Refuses each allocation in turn, of three sessions and of a server whose job is killed while it runs, by the program that ./os builds, or another
# one that OS_PROGRAM names (tools/allocations.py says what may be answered then), and ends with counts.
#   bash tools/allocations.sh
. "$(dirname "$0")/program.sh"
room=$(mktemp -d) || exit 2
trap 'rm -rf "$room"' EXIT

# What stands before the C library's allocator: the call with the number in REFUSE_AT gets no memory, and that is told on the standard
# error, on which the program itself writes nothing.
cat >"$room/refuse.c" <<'SHIM'
#include <errno.h>
#include <stdlib.h>
#include <unistd.h>
void *__libc_malloc(size_t size);
void *__libc_realloc(void *old, size_t size);
static unsigned long seen;
static int refused(void) {
    const char *at = getenv("REFUSE_AT");
    if (at == NULL || __atomic_add_fetch(&seen, 1, __ATOMIC_SEQ_CST) != strtoul(at, NULL, 10)) return 0;
    if (write(2, "refused\n", 8) != 8) _exit(99);
    errno = ENOMEM;
    return 1;
}
void *malloc(size_t size) { return refused() ? NULL : __libc_malloc(size); }
void *realloc(void *old, size_t size) { return refused() ? NULL : __libc_realloc(old, size); }
SHIM
cc -shared -fPIC -O1 -o "$room/refuse.so" "$room/refuse.c" || exit 2
python3 tools/allocations.py "$room/refuse.so" "$room"
