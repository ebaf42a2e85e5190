/* The kit's compiler comes without headers: these are the few names that the
   callers here use, for any compiler that is of GCC's family. */
#ifndef NIL_TEST_STDINT_H
#define NIL_TEST_STDINT_H

typedef __UINT8_TYPE__ uint8_t;
typedef __UINT16_TYPE__ uint16_t;
typedef __UINT32_TYPE__ uint32_t;
typedef __UINT64_TYPE__ uint64_t;
typedef __INT8_TYPE__ int8_t;
typedef __INT16_TYPE__ int16_t;
typedef __INT32_TYPE__ int32_t;
typedef __INT64_TYPE__ int64_t;

#define UINT32_C(c) c##U
#define UINT64_C(c) c##UL
#define INT32_MIN (-2147483647 - 1)
#define INT32_MAX 2147483647
#define UINT32_MAX 4294967295U

#endif
