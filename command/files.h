/* Bytes in and out of the process. A read or a write that fails, or falls short, is told by C's error number. */
#ifndef FILES_H
#define FILES_H

#include "bytes.h"

/*
 * Gives each standard stream that is closed a descriptor that cannot be used: a file that is opened later would have
 * got its number, and messages would have gone into that file. SIGPIPE and SIGXFSZ become errors of write.
 */
void guard_streams(void);

/* Adds all bytes of a file, or of standard input where it is null or `-`. 0, or an error number. */
int read_file(const char *name, bytes *to);

/* Writes all bytes to a descriptor. 0, or an error number. */
int write_all(int descriptor, const uint8_t *from, size_t len);

/* Writes all bytes to standard output, and closes it: some errors are told only then. */
int write_output(const bytes *from);

/*
 * Writes all bytes to a file: to a new one beside it, which then takes its name and its permissions. A symbolic link
 * stays, and what it leads to is replaced or made. What is there and is no regular file is written to as it is.
 */
int write_file(const char *name, const bytes *from);

#endif
