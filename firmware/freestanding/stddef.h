/* As much of the standard's header as snjofrask.h and the image need: the kit's compiler brings none. */
#ifndef FREESTANDING_STDDEF_H
#define FREESTANDING_STDDEF_H

typedef __SIZE_TYPE__ size_t;
#define offsetof(type, member) __builtin_offsetof(type, member)

#endif
