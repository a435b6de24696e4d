#pragma once
/* The numbers are those of Linux on x86-64 and arm64. */
#include <stdint.h>
#define RLIMIT_AS 9
#define RLIM_INFINITY UINT64_MAX
struct rlimit {
    uint64_t rlim_cur, rlim_max;
};
int getrlimit(int resource, struct rlimit *limit);
