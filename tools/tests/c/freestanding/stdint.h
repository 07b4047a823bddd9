/* For the kit's compiler, which comes without headers: what include/keyboard.h and its test need of this one. */
typedef __UINT8_TYPE__ uint8_t;
typedef __UINT16_TYPE__ uint16_t;
