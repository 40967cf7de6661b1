/* Prints the line, column and bytes of each malformed sequence of UTF-8, and how many there are:
 *
 *     cc malformed.c $(pkg-config --cflags --libs encoding_text) && ./a.out < text
 *
 * No malformed sequence crosses the end of a line, so each line is searched separately. Columns count characters from
 * 1, and a malformed sequence as one. */
#define _POSIX_C_SOURCE 200809L
#include <encoding_text.h>
#include <stdio.h>
#include <stdlib.h>

int main(void)
{
    char *line = NULL;
    size_t room = 0, line_number = 0, count = 0;
    ssize_t length;
    while ((length = getline(&line, &room, stdin)) > 0) {
        const uint8_t *at = (const uint8_t *)line, *end = at + length;
        size_t column = 1;
        line_number++;
        for (;;) {
            encoding_text_malformed_sequence malformed = encoding_text_next_malformed(at, (size_t)(end - at));
            if (malformed.length == 0) {
                break;
            }
            for (; malformed.place > 0; malformed.place--) {
                column += (*at++ & 0xC0) != 0x80; /* not a continuation byte: a character begins */
            }
            printf("line %zu, column %zu:", line_number, column++);
            for (; malformed.length > 0; malformed.length--) {
                printf(" %02X", *at++);
            }
            putchar('\n');
            count++;
        }
    }
    printf("%zu malformed\n", count);
    free(line);
    return !feof(stdin);
}
