/* The desk's programs: desk build | read, on the lines of standard input. The status is 0 where the
 * lines could be printed, 1 where not, 2 if it was called wrongly. */
#include "desk_text.h"

#include <stdio.h>
#include <string.h>

int main(int arguments, char **argument)
{
    static char text[MOST_TEXT], printed[MOST_PRINTED];
    const size_t length = fread(text, 1, sizeof text, stdin);
    size_t signs;

    if (arguments == 2 && strcmp(argument[1], "build") == 0) {
        signs = second_build_text(text, length, printed);
    } else if (arguments == 2 && strcmp(argument[1], "read") == 0) {
        signs = second_read_text(text, length, printed);
    } else {
        fprintf(stderr, "desk build | read\n");
        return 2;
    }
    return fwrite(printed, 1, signs, stdout) == signs && fflush(stdout) == 0 ? 0 : 1;
}
