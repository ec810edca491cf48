/* mivtolgya_check_floating_point sees each setting that the proofs exclude. Ends with status 1 if it does not. Linux, -lm. */
#define _GNU_SOURCE
#include <fenv.h>
#include <mivtolgya.h>
#include <stdio.h>
#include <xmmintrin.h>

static int failures;

static void expect(const char *setting, uint64_t expected) {
    uint64_t answer = mivtolgya_check_floating_point();
    if (answer != expected) {
        printf("%s: %s, not %s\n", setting, mivtolgya_refusal_text(answer), mivtolgya_refusal_text(expected));
        failures++;
    }
}

int main(void) {
    static const int modes[] = {FE_UPWARD, FE_DOWNWARD, FE_TOWARDZERO};
    expect("as the program starts", MIVTOLGYA_ACCEPTED);
    for (size_t i = 0; i < 3; i++) {
        fesetround(modes[i]);
        expect("another rounding mode", MIVTOLGYA_OTHER_ROUNDING);
    }
    fesetround(FE_TONEAREST);
    const unsigned usual = _mm_getcsr();
    _mm_setcsr(usual | 0x8000u);
    expect("flush to zero", MIVTOLGYA_SUBNORMALS_LOST);
    _mm_setcsr(usual | 0x0040u);
    expect("denormals are zero", MIVTOLGYA_SUBNORMALS_LOST);
    _mm_setcsr(usual);
    feenableexcept(FE_DIVBYZERO);
    expect("a trapped exception", MIVTOLGYA_EXCEPTIONS_TRAPPED);
    fedisableexcept(FE_ALL_EXCEPT);
    feraiseexcept(FE_INEXACT | FE_OVERFLOW);
    expect("exceptions that were noted", MIVTOLGYA_ACCEPTED);
    return failures != 0;
}
