#define _GNU_SOURCE
#include "lend.h"
#include <sanitizer/asan_interface.h>
#include <stdio.h>
#include <stdlib.h>
#include <string.h>
#include <sys/mman.h>
#include <unistd.h>

enum { PAGE = 4096, ZONE = 256, PATTERN = 0xC3 };

static void *checked(void *at, const char *what) {
    if (at == MAP_FAILED) {
        perror(what);
        exit(2);
    }
    return at;
}

void lend_open(Lent *l, size_t most, int written) {
    size_t room = (most + ZONE + PAGE - 1) / PAGE * PAGE;
    int file = memfd_create("lent", 0);
    if (file < 0 || ftruncate(file, (off_t)room) != 0) {
        perror("memfd");
        exit(2);
    }
    uint8_t *all = checked(mmap(NULL, room + 2 * PAGE, PROT_NONE, MAP_PRIVATE | MAP_ANONYMOUS, -1, 0), "mmap");
    int rights = written ? PROT_READ | PROT_WRITE : PROT_READ;
    l->pages = checked(mmap(all + PAGE, room, rights, MAP_SHARED | MAP_FIXED, file, 0), "mmap");
    l->behind = checked(mmap(NULL, room, PROT_READ | PROT_WRITE, MAP_SHARED, file, 0), "mmap");
    l->room = room;
    close(file);
}

void lend(Lent *l, size_t len, Side side) {
    size_t from = side == AT_END ? l->room - len : 0;
    size_t zone = side == AT_END ? from - ZONE : len;
    l->own = l->behind + from;
    l->lent = l->pages + from;
    l->len = len;
    l->zone = l->behind + zone;
    if (len == 0 && side == AT_START) l->lent = l->pages - PAGE / 2;
    memset(l->zone, PATTERN, ZONE);
    ASAN_POISON_MEMORY_REGION(l->pages + zone, ZONE);
}

int lend_close(Lent *l) {
    static uint8_t pattern[ZONE];
    if (pattern[0] != PATTERN) memset(pattern, PATTERN, ZONE);
    ASAN_UNPOISON_MEMORY_REGION(l->pages + (l->zone - l->behind), ZONE);
    return memcmp(l->zone, pattern, ZONE) == 0;
}
