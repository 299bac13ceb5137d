/*
 * Keeps a unit's row meter in a file from garbling to garbling, for a host programmer to copy. "The meter" in docs/HOST.md says when each
 * of these is called, and what is on the disk when the power goes. For C99 or later on Linux, with _POSIX_C_SOURCE at 200809L.
 *
 *   meter_lock          before the file is made or loaded; the lock is given back by close(lock), once the totals are saved
 *   meter_create        once in the life of a unit, after lupiknam_meter_carry; fails where the file is there
 *   meter_sync_folder   before an old total is put away, where the file was found and not made
 *   meter_load          before a garbling
 *   meter_save          after an accepted garbling, and before its rows are handed on
 *
 * Each returns NULL, or what is wrong in words, which are good until the next call.
 *
 * The file has 40 bytes: the letters LPKMETER, then the totals of accounts 0 to 7, four bytes each, the lowest first, whatever the order of
 * bytes in the machine's own numbers. A single total of four or eight bytes is never taken for it.
 */
#ifndef METER_FILE_H
#define METER_FILE_H

#include "lupiknam.h"
#include <errno.h>
#include <fcntl.h>
#include <stdio.h>
#include <string.h>
#include <sys/file.h>
#include <unistd.h>

enum { METER_PATH = 4096, METER_HEAD = 8, METER_TOTALS = 8, METER_BYTES = METER_HEAD + 4 * METER_TOTALS };

static const char meter_head[] = "LPKMETER";

/* ---- the bytes */

static inline void meter_to_bytes(const lupiknam_meter *meter, uint8_t *bytes)
{
    memcpy(bytes, meter_head, METER_HEAD);
    for (int i = 0; i < 4 * METER_TOTALS; i++)
        bytes[METER_HEAD + i] = (uint8_t)(meter->totals[i / 4] >> 8 * (i % 4));
}

static inline void meter_from_bytes(const uint8_t *bytes, lupiknam_meter *meter)
{
    for (int account = 0; account < METER_TOTALS; account++) {
        const uint8_t *b = bytes + METER_HEAD + 4 * account;
        meter->totals[account] = b[0] | (uint32_t)b[1] << 8 | (uint32_t)b[2] << 16 | (uint32_t)b[3] << 24;
    }
}

/* ---- the steps */

/* A file beside the meter's, whose name has an ending more. */
static inline const char *meter_beside(const char *path, const char *ending, char *name)
{
    const int length = snprintf(name, METER_PATH, "%s%s", path, ending);
    return length < 0 || length >= METER_PATH ? "the name is too long" : NULL;
}

static inline const char *meter_why(int succeeded)
{
    return succeeded ? NULL : strerror(errno);
}

/* All bytes, and none that wait in the machine's memory: they are on the disk when this returns. */
static inline const char *meter_put(int file, const uint8_t *bytes)
{
    size_t done = 0;
    while (done < METER_BYTES) {
        const ssize_t more = write(file, bytes + done, METER_BYTES - done);
        if (more == 0)
            return "cannot be written whole";
        if (more < 0 && errno != EINTR)
            return strerror(errno);
        done += more > 0 ? (size_t)more : 0;
    }
    return meter_why(fsync(file) == 0);
}

/* The totals under another name: until they are there whole, the meter's own file stays as it is. What an earlier try left under that name
   is taken away and not written over: where the power went in meter_create it is a second name of the meter's own file. */
static inline const char *meter_put_beside(const char *path, const lupiknam_meter *meter, char *fresh)
{
    uint8_t bytes[METER_BYTES];
    const char *wrong = meter_beside(path, ".new", fresh);
    if (wrong)
        return wrong;
    unlink(fresh);
    const int file = open(fresh, O_WRONLY | O_CREAT | O_EXCL, 0600);
    if (file < 0)
        return strerror(errno);
    meter_to_bytes(meter, bytes);
    wrong = meter_put(file, bytes);
    if (close(file) != 0 && !wrong)
        wrong = strerror(errno);
    return wrong;
}

/* ---- what a host calls */

/* Another process, or a thread that has not taken it, is kept out; whoever is kept out does not wait. The lock is on a file of its own,
   since the meter's is another one after each saving. When a process ends, however it ends, its lock is gone; a program that it starts
   does not have it. */
static inline const char *meter_lock(const char *path, int *lock)
{
    char name[METER_PATH];
    const char *wrong = meter_beside(path, ".lock", name);
    if (wrong)
        return wrong;
    *lock = open(name, O_RDWR | O_CREAT | O_CLOEXEC, 0600);
    if (*lock < 0)
        return strerror(errno);
    if (flock(*lock, LOCK_EX | LOCK_NB) == 0)
        return NULL;
    wrong = errno == EWOULDBLOCK ? "in use by another garbling" : strerror(errno);
    close(*lock);
    return wrong;
}

/* A name is on the disk only when its folder is. */
static inline const char *meter_sync_folder(const char *path)
{
    char folder[METER_PATH] = ".";
    const char *slash = strrchr(path, '/');
    if (slash) /* with the slash, so that / stays / */
        snprintf(folder, sizeof folder, "%.*s", (int)(slash - path) + 1, path);
    const int file = open(folder, O_RDONLY | O_DIRECTORY);
    if (file < 0)
        return strerror(errno);
    const char *wrong = meter_why(fsync(file) == 0);
    close(file);
    return wrong;
}

/* A link is made only where no file has that name: a second carry fails here, and the totals stay. The file system must have hard links. */
static inline const char *meter_create(const char *path, const lupiknam_meter *meter)
{
    char fresh[METER_PATH];
    const char *wrong = meter_put_beside(path, meter, fresh);
    if (wrong)
        return wrong;
    if (link(fresh, path) != 0)
        wrong = errno == EEXIST ? "is there already: a total is carried over once" : strerror(errno);
    unlink(fresh);
    return wrong ? wrong : meter_sync_folder(path);
}

/* A file that is not there, or is not whole, is not a new meter: what the accounts have garbled would be lost. */
static inline const char *meter_load(const char *path, lupiknam_meter *meter)
{
    uint8_t bytes[METER_BYTES + 1];
    FILE *file = fopen(path, "rb");
    if (!file)
        return strerror(errno);
    const size_t length = fread(bytes, 1, sizeof bytes, file);
    const int failed = ferror(file);
    fclose(file);
    if (failed)
        return "cannot be read";
    if (length != METER_BYTES || memcmp(bytes, meter_head, METER_HEAD) != 0)
        return "is no meter of eight totals";
    meter_from_bytes(bytes, meter);
    return NULL;
}

/* The new file takes the old one's place in one step: at every moment the name leads to the totals from before or to those from now,
   and so it does where this fails. */
static inline const char *meter_save(const char *path, const lupiknam_meter *meter)
{
    char fresh[METER_PATH];
    const char *wrong = meter_put_beside(path, meter, fresh);
    if (!wrong)
        wrong = meter_why(rename(fresh, path) == 0);
    return wrong ? wrong : meter_sync_folder(path);
}

#endif
