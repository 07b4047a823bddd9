/* For the kit's compiler, which comes without headers: what include/keyboard.h and its test need of this one. */
typedef __SIZE_TYPE__ size_t;
#define offsetof(type, member) __builtin_offsetof(type, member)
