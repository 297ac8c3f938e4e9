/* Lines of the tool's own, on standard error. */
#ifndef COMPLAIN_H
#define COMPLAIN_H

/* A sentence behind the tool's name. Returns 0. */
int complain(const char *format, ...) __attribute__((format(printf, 1, 2)));

#endif
