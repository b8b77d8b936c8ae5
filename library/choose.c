/* The functions of coding.h, for two levels of the processor. crates/coding_exports is built for x86-64-v2 and for
   x86-64-v3, which has AVX2, and library/install names the functions of the two v2_coding_encode, v3_coding_encode and
   so on. The loader asks once for each name of coding.h which function it stands for, at the latest when that is first
   called, and all calls go there. An answer depends on nothing but the processor, so threads need no lock.

   No proof covers this file. It needs gcc 12 or later, which knows the levels by name. */
#include "coding.h"

static int has_v3(void) {
  __builtin_cpu_init();
  return __builtin_cpu_supports("x86-64-v3") != 0;
}

#define CHOOSE(name)                                                                                                   \
  extern __typeof__(name) v2_##name __attribute__((visibility("hidden")));                                             \
  extern __typeof__(name) v3_##name __attribute__((visibility("hidden")));                                             \
  static __typeof__(name) *choose_##name(void) { return has_v3() ? v3_##name : v2_##name; }                            \
  __typeof__(name) name __attribute__((ifunc("choose_" #name)));

CHOOSE(coding_fragment_length)
CHOOSE(coding_encode)
CHOOSE(coding_encode_one)
CHOOSE(coding_decode)
CHOOSE(coding_repair)
CHOOSE(coding_repair_fragment)
CHOOSE(coding_text)

const char *coding_processor(void) { return has_v3() ? "x86-64-v3" : "x86-64-v2"; }
