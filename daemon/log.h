/* Lines for the operator: to standard error with time and level, or to syslog. */
#ifndef DUALNETD_LOG_H
#define DUALNETD_LOG_H

#include <stdbool.h>
#include <stdint.h>
#include <syslog.h>

/* Where lines go from now on, and up to which level (LOG_ERR to LOG_DEBUG). */
void log_to(bool to_syslog, int level);

/* Writes one line. If standard error is a pipe that nobody reads, or syslog's socket is full, the line is lost: the daemon
 * waits for no reader. */
void say(int level, const char *format, ...) __attribute__((format(printf, 2, 3)));

/* The level of this name, or -1. */
int log_level(const char *name);

/* Milliseconds of a clock that never goes back. */
int64_t now_ms(void);

#endif
