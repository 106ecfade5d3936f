/*
 * The only program of the test machine: loads /example.ko and /test.ko and takes them out again, prints the kernel's
 * log, and switches the machine off.
 */
#define _GNU_SOURCE
#include <errno.h>
#include <fcntl.h>
#include <stdio.h>
#include <string.h>
#include <sys/klog.h>
#include <sys/reboot.h>
#include <sys/syscall.h>
#include <unistd.h>

enum { READ_ALL = 3 }; /* of klogctl */

static void load(const char *name)
{
    char path[64], module[64];
    snprintf(path, sizeof path, "/%s.ko", name);
    snprintf(module, sizeof module, "yelansub_%s", name);
    long loaded = syscall(SYS_finit_module, open(path, O_RDONLY), "", 0);
    printf("%s: %s\n", module, loaded == 0 ? "loaded" : strerror(errno));
    if (loaded == 0)
        printf("%s: %s\n", module, syscall(SYS_delete_module, module, 0) == 0 ? "unloaded" : strerror(errno));
}

int main(void)
{
    static char log[1 << 18];
    load("example");
    load("test");
    int length = klogctl(READ_ALL, log, sizeof log - 1);
    printf("log:\n%.*s\nend of the log\n", length > 0 ? length : 0, log);
    fflush(stdout);
    reboot(RB_POWER_OFF);
    for (;;)
        pause();
}
