/* How much stack jsx_job takes at the most: roots of 64 levels, nested in six ways, under every flag byte, with room for the calls and without. Each runs on a thread whose stack
 * was filled with a pattern; what is no longer the pattern was used, the thread's own part with it. From the repository's top, behind `rt lib` in crates/jsxlib:
 *     cc -O1 -Ihosts hosts/stack.c crates/jsxlib/out/libjsxlib.a -lpthread -o stack && ./stack */
#define _POSIX_C_SOURCE 200112L
#include <pthread.h>
#include <stdio.h>
#include <stdlib.h>
#include <string.h>
#include "jsxlib.h"

enum { LEVELS = 64, STACK = 1 << 20, PATTERN = 0xa5 };
enum kind { VALUE, CHILD, KEY, NAMESPACED, FRAGMENT, KEY_BEHIND_SPREAD, KINDS };
static const char *const names[KINDS] = {"attribute values", "children", "keys", "namespaced values", "fragments", "keys behind a spread"};

static const uint8_t text[] = {'k', 'e', 'y', ' ', 'a', ' ', 'b'};
static uint8_t list[65536], calls[131072], notices[65536], records[4096], job[3] = {0x61, 0, 0};
static size_t size, room;
static uint8_t answer;

static void byte(uint8_t b) { list[size++] = b; }

static void number(uint8_t n) {
    byte(n);
    byte(0);
}

static void span(uint8_t start, uint8_t len) {
    number(start);
    number(len);
}

/* A node of so many levels. */
static void node(enum kind kind, int levels) {
    byte(kind == FRAGMENT ? 0x11 : 0x10);
    for (int i = 0; i < 8; i++) byte(0);
    if (kind != FRAGMENT) {
        byte(0x20);
        span(4, 1);
        if (kind == KEY_BEHIND_SPREAD) {
            byte(0x32);
            number(0);
        }
        if (kind == VALUE || kind == NAMESPACED || kind == KEY || kind == KEY_BEHIND_SPREAD) {
            byte(kind == NAMESPACED ? 0x31 : 0x30);
            if (kind == NAMESPACED) span(4, 1);
            if (kind == VALUE || kind == NAMESPACED) span(6, 1);
            else span(0, 3);
            if (levels > 1) node(kind, levels - 1);
            else {
                byte(0x42);
                number(1);
            }
        }
        byte(0x1e);
    }
    if ((kind == CHILD || kind == FRAGMENT) && levels > 1) node(kind, levels - 1);
    byte(0x1f);
}

static void *run(void *nothing) {
    size_t stage, taken, call_fill, notice_fill, figure;
    answer = jsx_job(text, sizeof text, job, sizeof job, list, size, calls, room, notices, sizeof notices, records, sizeof records, &stage, &taken, &call_fill, &notice_fill, &figure);
    return nothing;
}

static size_t used(void *stack) {
    const uint8_t *at = stack, *end = at + STACK;
    pthread_attr_t attributes;
    pthread_t thread;
    memset(stack, PATTERN, STACK);
    if (pthread_attr_init(&attributes) || pthread_attr_setstack(&attributes, stack, STACK) || pthread_create(&thread, &attributes, run, NULL) || pthread_join(thread, NULL)) exit(1);
    while (at < end && *at == PATTERN) at++;
    return (size_t)(end - at);
}

int main(void) {
    void *stack;
    if (posix_memalign(&stack, 4096, STACK)) return 1;
    for (int kind = 0; kind < KINDS; kind++) {
        size_t most = 0;
        size = 2;
        byte(1);
        byte(0);
        byte(2);
        byte(3);
        node(kind, LEVELS);
        list[0] = (uint8_t)(size - 2);
        list[1] = (uint8_t)((size - 2) >> 8);
        for (int i = 0; i < 512; i++) {
            job[1] = (uint8_t)(i >> 1);
            room = i & 1 ? sizeof calls : 0;
            size_t now = used(stack);
            if (now > most) most = now;
            if (answer != (room ? 0 : 10)) return 1; /* the root is accepted wherever its calls have room */
        }
        printf("%-22s %7zu\n", names[kind], most);
    }
    return 0;
}
