#!/usr/bin/env python3
"""calls.py near|far HEADER: writes a C program that hands the calls of a header on, or one that is handed them.

`near` has every call of the header: it writes the call's number, its plain arguments and what its pointers lead to into
memory that both share, and waits for the answer and for what was lent. `far` reads that, calls the library and writes both
back. A pointer's length is the argument behind it. Structs pass as they lie in memory: both processors lay them out alike."""

import re
import sys

# What both sides know of the memory that they share: whose turn it is, and a message.
SHARED = r"""#include <linux/futex.h>
#include <sched.h>
#include <stdatomic.h>
#include <stdio.h>
#include <stdlib.h>
#include <string.h>
#include <sys/mman.h>
#include <sys/syscall.h>
#include <unistd.h>
#include "mirtalughe.h"

enum { ROOM = 1 << 20, NEAR = 0, FAR = 1 };

typedef struct {
    _Atomic int turn;
    char message[ROOM];
} shared;

static void hand_over(shared *s, int to) {
    atomic_store(&s->turn, to);
    syscall(SYS_futex, &s->turn, FUTEX_WAKE, 1, NULL, NULL, 0);
}

/* Waits for a turn, at first without sleeping. */
static void wait_for(shared *s, int whose) {
    for (int k = 0; atomic_load(&s->turn) != whose; k++) {
        if (k < 500) continue;
        if (k < 520) sched_yield();
        else syscall(SYS_futex, &s->turn, FUTEX_WAIT, !whose, NULL, NULL, 0);
    }
}

static void put(char **at, const void *from, size_t size) { memcpy(*at, from, size); *at += size; }

static void get(char **at, void *to, size_t size) { memcpy(to, *at, size); *at += size; }
"""

NEAR = r"""#include <sys/prctl.h>
#include <signal.h>

/* One program for each thread, which ends with it. */
static _Thread_local shared *far;

static void stop(const char *what) { perror(what); abort(); }

static char *start(void) {
    if (!far) {
        int file = memfd_create("calls", 0);
        if (file < 0 || ftruncate(file, sizeof(shared))) stop("memfd");
        far = mmap(NULL, sizeof(shared), PROT_READ | PROT_WRITE, MAP_SHARED, file, 0);
        if (far == MAP_FAILED) stop("mmap");
        pid_t child = fork();
        if (child < 0) stop("fork");
        if (child == 0) {
            char name[16];
            prctl(PR_SET_PDEATHSIG, SIGKILL);
            sprintf(name, "%d", file);
            execl(RUN, RUN, LIBRARY, name, (char *)0);
            stop(RUN);
        }
        close(file);
    }
    return far->message;
}

static void room_for(char *at, size_t size) {
    if (size > (size_t)(far->message + ROOM - at)) { fputs("a call is too long\n", stderr); abort(); }
}
"""

FAR = r"""
static void *copy(char **at, size_t size) {
    void *made = malloc(size + 1);
    if (!made) abort();
    get(at, made, size);
    return made;
}
"""


class Call:
    def __init__(self, number, answer, name, words):
        self.number, self.answer, self.name = number, answer, name
        self.arguments = [re.fullmatch(r"(const )?(\w+) (\*?)(\w+)", word.strip()).groups() for word in words.split(",")]
        self.plain = [(kind, name) for _, kind, star, name in self.arguments if not star]
        self.lent = [
            (not fixed, kind, name, self.arguments[k + 1][3])
            for k, (fixed, kind, star, name) in enumerate(self.arguments)
            if star
        ]
        self.parameters = words


def calls(header):
    text = re.sub(r"/\*.*?\*/", "", open(header).read(), flags=re.S)
    found = re.findall(r"^(\w+) (mirtalughe_\w+)\(([^)]*)\);", text, flags=re.M)
    return [Call(k, *call) for k, call in enumerate(found)]


def near(call):
    yield f"\n{call.answer} {call.name}({call.parameters}) {{"
    yield f"    char *at = start();\n    unsigned char byte = {call.number};"
    yield "    put(&at, &byte, 1);"
    for _, name in call.plain:
        yield f"    put(&at, &{name}, sizeof {name});"
    for _, _, name, length in call.lent:
        yield f"    byte = {name} != NULL;\n    put(&at, &byte, 1);"
        yield f"    if ({name}) room_for(at, {length} * sizeof *{name}), put(&at, {name}, {length} * sizeof *{name});"
    yield f"    {call.answer} answer;\n    hand_over(far, FAR);\n    wait_for(far, NEAR);\n    at = far->message;"
    yield "    get(&at, &answer, sizeof answer);"
    for changes, _, name, length in call.lent:
        if changes:
            yield f"    if ({name}) get(&at, {name}, {length} * sizeof *{name});"
    yield "    return answer;\n}"


def far(call):
    yield f"\nstatic void call_{call.number}(char *message) {{\n    char *at = message + 1;"
    for kind, name in call.plain:
        yield f"    {kind} {name};\n    get(&at, &{name}, sizeof {name});"
    for _, kind, name, length in call.lent:
        yield f"    {kind} *{name} = *at++ ? copy(&at, {length} * sizeof *{name}) : NULL;"
    arguments = ", ".join(name for _, _, _, name in call.arguments)
    yield f"    {call.answer} answer = {call.name}({arguments});\n    at = message;\n    put(&at, &answer, sizeof answer);"
    for changes, _, name, length in call.lent:
        if changes:
            yield f"    if ({name}) put(&at, {name}, {length} * sizeof *{name});"
        yield f"    free({name});"
    yield "}"


MAIN = r"""
int main(int count, char **words) {
    if (count != 2) return 2;
    shared *s = mmap(NULL, sizeof(shared), PROT_READ | PROT_WRITE, MAP_SHARED, atoi(words[1]), 0);
    if (s == MAP_FAILED) return 1;
    for (;;) {
        wait_for(s, FAR);
        switch (s->message[0]) {
%s
        default: abort();
        }
        hand_over(s, NEAR);
    }
}"""


def main():
    which, header = sys.argv[1:]
    found = calls(header)
    print(SHARED + (NEAR if which == "near" else FAR))
    for call in found:
        print("\n".join(near(call) if which == "near" else far(call)))
    if which == "far":
        print(MAIN % "\n".join(f"        case {call.number}: call_{call.number}(s->message); break;" for call in found))


main()
