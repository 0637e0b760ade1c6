/* What C's <stddef.h> has that this project uses, for a compiler that comes without C's headers. */
typedef __SIZE_TYPE__ size_t;
#define offsetof(type, member) __builtin_offsetof(type, member)
