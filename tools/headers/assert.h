/* What is used of C's <assert.h>. */
#ifndef ASSERT_H
#define ASSERT_H

_Noreturn void __assert_fail(const char *what, const char *file, unsigned line, const char *function);

#define assert(what) ((what) ? (void)0 : __assert_fail(#what, __FILE__, __LINE__, __func__))

#endif
