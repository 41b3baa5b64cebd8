/* For tools/mutants: what each program has in it. MUTANT=N chooses a change. For MUTANTS_REACHED, a file, the changes are noted whose functions are
 * reached. No sanitizer and no search may see it. */
#define _GNU_SOURCE
#include <fcntl.h>
#include <stdlib.h>
#include <sys/mman.h>
#include <unistd.h>
static int mutant = -1;
static char *mutants_reached;
__attribute__((constructor, no_sanitize("thread"))) static void choose_mutant(void) {
    const char *file = getenv("MUTANTS_REACHED");
    if (getenv("MUTANT") != NULL) mutant = atoi(getenv("MUTANT"));
    if (file == NULL) return;
    int reached = open(file, O_RDWR);
    mutants_reached = (char *)mmap(NULL, 1 << 16, PROT_READ | PROT_WRITE, MAP_SHARED, reached, 0);
    close(reached);
}
__attribute__((noinline, no_sanitize("thread"))) static int is_mutant(int number) {
    if (mutants_reached != NULL) mutants_reached[number] = 1;
    return number == mutant;
}
