/*
 * For stand-ins of the library that make one fault: FAULT in the environment names
 * it, and with none there is none.
 */
#ifndef FAULT_H
#define FAULT_H

#include <stdbool.h>
#include <stdlib.h>
#include <string.h>

static inline bool has_fault(const char *name)
{
    static const char *fault; /* asked for once, since every call asks for many */

    if (fault == NULL)
        fault = getenv("FAULT") != NULL ? getenv("FAULT") : "";
    return strcmp(fault, name) == 0;
}

#endif
