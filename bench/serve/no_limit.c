/* Lets memcached start under valgrind, where it may not set how many files it opens. */
#include <sys/resource.h>

int setrlimit(__rlimit_resource_t resource, const struct rlimit *limit) { return (void)resource, (void)limit, 0; }
