/*
 * Starts the program PLANT_OFFICE with the library PLANT_BY preloaded before all others that the environment names. It is
 * linked statically, so no preloaded library acts on it.
 */
#include <stdio.h>
#include <stdlib.h>
#include <unistd.h>

int main(int count, char **words)
{
    static char libraries[8192];
    const char *others = getenv("LD_PRELOAD");
    (void)count;
    snprintf(libraries, sizeof libraries, "%s%s%s", getenv("PLANT_BY"), others ? ":" : "", others ? others : "");
    setenv("LD_PRELOAD", libraries, 1);
    execv(getenv("PLANT_OFFICE"), words);
    return 127;
}
