/* A program outside the repository, built against what tools/install has put in place: holds the headers' version against the library's, resolves the node file
 * on standard input, and says what an empty file is refused for. */
#include <stdio.h>
#include <vaibmusan.h>

#if VAIB_VERSION_NUMBER < 2
#error "an older version of the headers"
#endif

static uint8_t file[VAIB_LONGEST_FILE + 1];
static struct vaib_buffers answer;

int main(void) {
    if (vaib_version() != VAIB_VERSION_NUMBER) return 1;
    size_t length = fread(file, 1, sizeof file, stdin);
    struct vaib_answer a = vaib_resolve_into(file, length, &answer);
    printf("version %s, %d.%d\n", VAIB_VERSION, VAIB_VERSION_MAJOR, VAIB_VERSION_MINOR);
    printf("%s: %zu bindings, %zu copies\n", vaib_number_text(a.number), a.bindings, a.copies);
    printf("%s\n", vaib_number_text(vaib_judge(file, 0)));
    printf("%s\n", vaib_number_text(UINT64_MAX));
    return 0;
}
