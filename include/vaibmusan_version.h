/* The version of these headers. Included by vaibmusan.h. */
#ifndef VAIBMUSAN_VERSION_H
#define VAIBMUSAN_VERSION_H

#define VAIB_VERSION_MAJOR 0
#define VAIB_VERSION_MINOR 2

/* As text, and as one number that grows with every version, for #if. */
#define VAIB_VERSION "0.2"
#define VAIB_VERSION_NUMBER (1000 * VAIB_VERSION_MAJOR + VAIB_VERSION_MINOR)

#endif
