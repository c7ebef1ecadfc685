// The listing in plain C: getline and printf.
#include <stdio.h>
#include <stdlib.h>
#include "reading.h"

int main(void) {
    char *line = 0;
    size_t room = 0;
    ssize_t n;
    unsigned long number = 0;
    fill_values();
    while ((n = getline(&line, &room, stdin)) > 0) {
        if (line[n - 1] == '\n') n--;
        struct answer a = read_line(line, (size_t)n);
        number++;
        if (a.bad >= 0) printf("%lu\tBAD\t%d\t-\n", number, a.bad);
        else if (a.form == 'x') printf("%lu\t%s\t%04X\t%08X\n", number, a.kind, a.sender, a.label);
        else if (a.form == '-') printf("%lu\t%s\t%04X\t-\n", number, a.kind, a.sender);
        else printf("%lu\t%s\t%04X\t%u\n", number, a.kind, a.sender, a.label);
    }
    free(line);
    return 0;
}
