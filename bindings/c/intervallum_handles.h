/* Sets and maps that change, and models to solve, behind handles: in the library that Cargo builds, beside the calls of intervallum.h.

   A call returns a code of intervallum.h, which is negative, and then changes nothing and writes nothing. Otherwise it returns
   0, or 1 for yes, or where it found and wrote what it looked for; one that writes a list returns its runs.

   What `made` points to gets a new handle, which its `free` ends; that of a null pointer does nothing. A null pointer for another
   handle, or for a place to write, is IVL_NULL. A handle that was ended, or of another type, must not be used. Calls that read
   one may run in several threads at once; one that edits it must run alone.

   Each call is there for two types of bounds, by names that end in _i64 and _u64: intervallum_handle_calls.h has them. */
#ifndef INTERVALLUM_HANDLES_H
#define INTERVALLUM_HANDLES_H

#include "intervallum.h"

#if defined(__cplusplus) && __cplusplus >= 201703L
#define IVL_NODISCARD [[nodiscard]]
#elif defined(__GNUC__)
#define IVL_NODISCARD __attribute__((warn_unused_result))
#else
#define IVL_NODISCARD
#endif

/* Why a search ended: all solutions were found, or as many as its limits allow, or as many nodes were visited. */
#define IVL_ALL 0
#define IVL_MOST_SOLUTIONS 1
#define IVL_MOST_NODES 2

#ifdef __cplusplus
extern "C" {
#endif

/* How far a search goes: to so many solutions, and through so many nodes of its tree. A node is a choice, or a part of the
   narrowing between two choices. */
typedef struct {
    uint64_t solutions;
    uint64_t nodes;
} ivl_limits;
/* A task that begins at the number of a variable, and how long it is. */
typedef struct {
    int64_t variable;
    uint64_t length;
} ivl_task;

#define IVL_NUMBER int64_t
#define IVL_OF(name) ivl_##name##_i64
#include "intervallum_handle_calls.h"
#undef IVL_NUMBER
#undef IVL_OF

#define IVL_NUMBER uint64_t
#define IVL_OF(name) ivl_##name##_u64
#include "intervallum_handle_calls.h"
#undef IVL_NUMBER
#undef IVL_OF

#ifdef __cplusplus
}
#endif

#endif
