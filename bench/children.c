/* What the plain loops share: bytes that grow, and children whose outputs are read as they come. */
#define _GNU_SOURCE
#include <fcntl.h>
#include <poll.h>
#include <spawn.h>
#include <stdint.h>
#include <stdio.h>
#include <stdlib.h>
#include <string.h>
#include <sys/wait.h>
#include <unistd.h>

extern char **environ;

struct bytes { uint8_t *at; size_t length, room; };

/* A child, and what it has printed so far. */
struct child { pid_t id; struct bytes output; };

/* The children that run, and what the system is asked of their outputs. */
struct children { uint32_t count; struct pollfd *asked; struct child **running; };

static void fail(const char *what) {
    perror(what);
    exit(1);
}

static void add(struct bytes *to, const void *from, size_t length) {
    if (to->length + length > to->room) {
        to->room = 2 * (to->length + length);
        to->at = realloc(to->at, to->room);
        if (!to->at) fail("memory");
    }
    if (length) memcpy(to->at + to->length, from, length);
    to->length += length;
}

static void read_all(int from, struct bytes *to) {
    uint8_t buffer[65536];
    ssize_t count;
    while ((count = read(from, buffer, sizeof buffer)) > 0) add(to, buffer, (size_t)count);
    if (count < 0) fail("read");
    close(from);
}

/* No children yet, and room for so many at once. */
static struct children no_children(uint32_t slots) {
    struct children all = { .asked = malloc(slots * sizeof *all.asked), .running = malloc(slots * sizeof *all.running) };
    if (!all.asked || !all.running) fail("memory");
    return all;
}

/* Starts a child that takes these parts, one after the other, as its input. */
static void start_child(struct children *all, struct child *child, char **words, const struct bytes *parts, int count) {
    int in[2], out[2];
    posix_spawn_file_actions_t actions;
    if (pipe2(in, O_CLOEXEC) || pipe2(out, O_CLOEXEC)) fail("pipe");
    posix_spawn_file_actions_init(&actions);
    posix_spawn_file_actions_adddup2(&actions, in[0], 0);
    posix_spawn_file_actions_adddup2(&actions, out[1], 1);
    if (posix_spawnp(&child->id, words[0], &actions, NULL, words, environ)) fail("spawn");
    posix_spawn_file_actions_destroy(&actions);
    close(in[0]);
    close(out[1]);
    for (int part = 0; part < count; part++) {
        for (size_t at = 0; at < parts[part].length;) {
            ssize_t written = write(in[1], parts[part].at + at, parts[part].length - at);
            if (written < 0) fail("write");
            at += (size_t)written;
        }
    }
    close(in[1]);
    all->asked[all->count] = (struct pollfd){ .fd = out[0], .events = POLLIN };
    all->running[all->count++] = child;
}

/* Waits until an output comes to its end, reads each as it comes, and gives the place of one that is at its end. */
static uint32_t wait_any(struct children *all) {
    for (;;) {
        if (poll(all->asked, all->count, -1) < 0) fail("poll");
        for (uint32_t at = 0; at < all->count; at++) {
            uint8_t buffer[65536];
            ssize_t length;
            if (!all->asked[at].revents) continue;
            length = read(all->asked[at].fd, buffer, sizeof buffer);
            if (length < 0) fail("read");
            if (length == 0) return at;
            add(&all->running[at]->output, buffer, (size_t)length);
        }
    }
}

/* Waits for whichever child ends first, and takes it out. One that doesn't end with 0 ends the loop. */
static struct child *take_any(struct children *all) {
    uint32_t at = wait_any(all);
    struct child *child = all->running[at];
    int status;
    close(all->asked[at].fd);
    if (waitpid(child->id, &status, 0) < 0) fail("wait");
    if (!WIFEXITED(status) || WEXITSTATUS(status)) {
        fprintf(stderr, "a child didn't end with 0\n");
        exit(1);
    }
    all->count--;
    memmove(all->asked + at, all->asked + at + 1, (all->count - at) * sizeof *all->asked);
    memmove(all->running + at, all->running + at + 1, (all->count - at) * sizeof *all->running);
    return child;
}
