#pragma once
typedef __SIZE_TYPE__ size_t;
typedef struct {
    long long number;
    long double fraction;
} max_align_t;
#define NULL ((void *)0)
#define offsetof(type, member) __builtin_offsetof(type, member)
