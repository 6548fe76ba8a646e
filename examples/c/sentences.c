#include "sentences.h"

#include <inttypes.h>
#include <stdbool.h>
#include <stdio.h>
#include <string.h>

/* By number. {place}, {1} and {2} stand for the byte's place and the amounts. */
static const char *const sentences[] = {
    [1] = "Our own type table breaks a rule at row {1}. The message was not looked at; this is ours to mend.",
    [2] = "The message is longer than {1} bytes. Please send it in parts.",
    [3] = "The message is not JSON at {place}: a comma, quotation mark or bracket is missing or wrong there, or the "
          "message ends too early.",
    [4] = "At {place} a 33rd bracket is opened while 32 are open. Please nest less deeply.",
    [5] = "At {place} stands a value of another kind than belongs there, such as a string in place of a number.",
    [6] = "The number at {place} has a fraction or an exponent, or passes 64 bits. Please send a whole number.",
    [7] = "The string at {place} cannot be taken: its hexadecimal or Base64 is wrong, or it is no word of the list "
          "that belongs there.",
    [8] = "The name at {place} is not known, and this object takes no others. Is it misspelled?",
    [9] = "The name at {place} stands in its object for the second time. Please send each member once.",
    [10] = "At {place} the members do not add up: one that is needed is missing, or there is one too many.",
    [11] = "At {place} stands a word or a choice of a newer version than ours. Please tell us your version.",
    [12] = "The value that we wanted to write breaks a rule at row {1}; this is ours to mend.",
    [13] = "The text that we wanted to write would have {1} bytes, and at most 65,536 are sent.",
    [14] = "The room that we lent is too small. A read needs {1} rows and {2} pool bytes, a write {1} bytes of text.",
    [15] = "Line {1} of the program's input is missing, too long or not hexadecimal.",
};

/* Numbers whose first amount is a byte of the text. */
static bool has_place(uint32_t number)
{
    return number >= ATTRYWIND_NOT_JSON && number <= ATTRYWIND_UNKNOWN;
}

static void say_place(uint64_t place, struct bytes text)
{
    size_t line = 1, column = 1;
    for (size_t i = 0; i < place && i < text.length; i++) {
        column = text.start[i] == '\n' ? 1 : column + 1;
        line += text.start[i] == '\n';
    }
    printf("byte %" PRIu64 " (line %zu, column %zu)", place, line, column);
}

static void say_template(const char *s, struct answer a, struct bytes text)
{
    while (*s != '\0') {
        if (strncmp(s, "{place}", 7) == 0) {
            say_place(a.first, text);
            s += 7;
        } else if (strncmp(s, "{1}", 3) == 0 || strncmp(s, "{2}", 3) == 0) {
            printf("%" PRIu64, s[1] == '1' ? a.first : a.second);
            s += 3;
        } else {
            putchar(*s++);
        }
    }
    putchar('\n');
}

/* Up to 20 bytes on each side of the place. Whatever a desk's screen might act on is shown as a point. */
static void say_near(uint64_t place, struct bytes text)
{
    size_t at = place < text.length ? (size_t)place : text.length;
    size_t from = at > 20 ? at - 20 : 0, to = text.length - at > 20 ? at + 20 : text.length;
    printf("    near: ");
    for (size_t i = from; i < to; i++) {
        if (i == at)
            printf(" >>> ");
        putchar(text.start[i] >= 0x20 && text.start[i] < 0x7F ? text.start[i] : '.');
    }
    printf(at == to ? " >>>\n" : "\n");
}

void say(struct answer a, struct bytes text)
{
    printf("    ");
    if (a.number == 0 || a.number >= sizeof sentences / sizeof *sentences) {
        printf("The call was not made: a buffer is null, not aligned, too long or overlaps another.\n");
        return;
    }
    say_template(sentences[a.number], a, text);
    if (has_place(a.number))
        say_near(a.first, text);
}
