/*
 * A test that is a program for user space and a part of a module for the kernel: PROGRAM(name) { ... }
 * is main, or the module's int test_name(void); either gives 0 if all is right. SAY prints.
 */
#ifdef __KERNEL__
#include <linux/printk.h>
#include <linux/string.h>
#define SAY(...) pr_info(__VA_ARGS__)
#define PROGRAM(name)      \
    int test_##name(void); \
    int test_##name(void)
#else
#include <stdio.h>
#include <string.h>
#define SAY(...) printf(__VA_ARGS__)
#define PROGRAM(name) int main(void)
#endif
