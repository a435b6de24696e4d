/* The types have the sizes and offsets that they have in the proved code, which are those of `#[repr(C)]`. A question has the same
   members on 32 bits, where only the header is used. */
#include "../proved.h"

#define STANDS(type, field, place, its_size) \
    _Static_assert(offsetof(type, field) == (place) && sizeof(((type *)0)->field) == (its_size), #type "." #field)

#if UINTPTR_MAX > UINT32_MAX
#define ON(bits_64, bits_32) bits_64

_Static_assert(sizeof(bcs_answer) == 24, "bcs_answer has 24 bytes");
STANDS(bcs_answer, status, 0, 4);
STANDS(bcs_answer, fault, 4, 4);
STANDS(bcs_answer, place, 8, 8);
STANDS(bcs_answer, length, 16, 8);

_Static_assert(sizeof(bcs_c_handle) == 8, "bcs_c_handle has 8 bytes");
STANDS(bcs_c_handle, registry, 0, 8);
#else
#define ON(bits_64, bits_32) bits_32
#endif

_Static_assert(sizeof(bcs_question) == ON(88, 56), "bcs_question has 88 bytes, or 56");
STANDS(bcs_question, size, 0, 4);
STANDS(bcs_question, call, 4, 4);
STANDS(bcs_question, number, 8, 4);
STANDS(bcs_question, second_number, 12, 4);
STANDS(bcs_question, depth, 16, 4);
STANDS(bcs_question, nodes, 20, 4);
STANDS(bcs_question, format, 24, ON(8, 4));
STANDS(bcs_question, format_length, ON(32, 28), ON(8, 4));
STANDS(bcs_question, first, ON(40, 32), ON(8, 4));
STANDS(bcs_question, first_length, ON(48, 36), ON(8, 4));
STANDS(bcs_question, second, ON(56, 40), ON(8, 4));
STANDS(bcs_question, second_length, ON(64, 44), ON(8, 4));
STANDS(bcs_question, views, ON(72, 48), ON(8, 4));
STANDS(bcs_question, views_length, ON(80, 52), ON(8, 4));

int layout_is_checked;
