/* The test module: what calls.c and trace.c find is printed when it is loaded; it loads if all is right. */
#include <linux/errno.h>
#include <linux/init.h>
#include <linux/module.h>

int test_calls(void);
int test_trace(void);

static int __init test_init(void)
{
	return test_calls() || test_trace() ? -EINVAL : 0;
}

static void __exit test_exit(void)
{
}

module_init(test_init);
module_exit(test_exit);
MODULE_LICENSE("GPL");
MODULE_DESCRIPTION("Tests of the library in a kernel");
