/* The system that SQLite asks for, with no files in it, no clock and no chance: enough for
   databases in memory. */
#include <string.h>
#include "build/amalgamation/sqlite3.h"

static int no_file(sqlite3_vfs *system, const char *name, sqlite3_file *file, int flags, int *got)
{
    (void)system, (void)name, (void)flags, (void)got;
    file->pMethods = NULL;
    return SQLITE_CANTOPEN;
}

static int nothing_deleted(sqlite3_vfs *system, const char *name, int synced)
{
    (void)system, (void)name, (void)synced;
    return SQLITE_IOERR_DELETE_NOENT;
}

static int never_there(sqlite3_vfs *system, const char *name, int flags, int *is_there)
{
    (void)system, (void)name, (void)flags;
    *is_there = 0;
    return SQLITE_OK;
}

static int same_name(sqlite3_vfs *system, const char *name, int size, char *full)
{
    (void)system;
    sqlite3_snprintf(size, full, "%s", name);
    return SQLITE_OK;
}

/* The same bytes each time, so that each run is the same. */
static int no_chance(sqlite3_vfs *system, int size, char *bytes)
{
    (void)system;
    memset(bytes, 7, size);
    return size;
}

static int no_sleep(sqlite3_vfs *system, int microseconds)
{
    (void)system, (void)microseconds;
    return 0;
}

/* Always noon of the first of January 2000, as a Julian day. */
static int no_clock(sqlite3_vfs *system, double *day)
{
    (void)system;
    *day = 2451545.0;
    return SQLITE_OK;
}

static int no_error(sqlite3_vfs *system, int size, char *text)
{
    (void)system, (void)size, (void)text;
    return 0;
}

static sqlite3_vfs no_files = {
    .iVersion = 1, .szOsFile = sizeof(sqlite3_file), .mxPathname = 64, .zName = "no files",
    .xOpen = no_file, .xDelete = nothing_deleted, .xAccess = never_there,
    .xFullPathname = same_name, .xRandomness = no_chance, .xSleep = no_sleep,
    .xCurrentTime = no_clock, .xGetLastError = no_error
};

/* SQLite calls these at its start and at its end. */

int sqlite3_os_init(void)
{
    return sqlite3_vfs_register(&no_files, 1);
}

int sqlite3_os_end(void)
{
    return SQLITE_OK;
}
