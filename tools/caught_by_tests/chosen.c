/* Linked to a program that has many planted bugs: says which of them was chosen. The program's path has a folder plant-N,
   where N is the number of the bug; no bug has the number 0. */
#include <stdlib.h>
#include <string.h>
#include <unistd.h>

static unsigned chosen;

/* Before the program's first step. It allocates nothing, since programs are tried without memory too. */
__attribute__((constructor)) static void choose(void) {
    char path[4096];
    ssize_t length = readlink("/proc/self/exe", path, sizeof path - 1);
    if (length <= 0)
        return;
    path[length] = 0;
    const char *folder = strstr(path, "/plant-");
    if (folder)
        chosen = (unsigned)strtoul(folder + strlen("/plant-"), NULL, 10);
}

unsigned bq_is_chosen(unsigned plant) { return plant == chosen; }
