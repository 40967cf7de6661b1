/*
 * Prints the address of each function within its file, in the format of nm. `chosen LIBRARY NAME..` looks the names up
 * in a shared library, `chosen '' NAME..` in the program itself.
 */
#define _GNU_SOURCE
#include <dlfcn.h>
#include <stdio.h>

int main(int count, char **arguments)
{
    void *library = count < 2 ? NULL : dlopen(arguments[1][0] == '\0' ? NULL : arguments[1], RTLD_NOW);

    for (int i = 2; i < count; i++) {
        void *function = library == NULL ? NULL : dlsym(library, arguments[i]);
        Dl_info file;
        if (function == NULL || dladdr(function, &file) == 0) {
            printf("%s isn't there\n", arguments[i]);
            return 1;
        }
        printf("%016lx %s\n", (unsigned long)((char *)function - (char *)file.dli_fbase), arguments[i]);
    }
    return library == NULL;
}
