/* For the kit's compiler, which comes without headers: what include/keyboard.h and its test need of this one. */
#ifndef __cplusplus
#define bool _Bool
#define true 1
#define false 0
#endif
