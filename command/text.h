/*
 * Reading a text word by word: what show prints, as write takes it. It knows the form alone: words, numbers, signs and
 * lines, with blanks between them. Whatever else is met ends the program, which then says what was expected, and where.
 */
#ifndef TEXT_H
#define TEXT_H

#include <stdarg.h>
#include <stdint.h>
#include <stdio.h>
#include <stdlib.h>

/* The status where the program could not do what it was called for. */
enum { status_failed = 2 };

/* A text that is read up to a place, and the line of that place, from 1. If it has a byte, the last is a line feed. */
struct text {
    const char *name;
    const uint8_t *bytes;
    size_t length, place, line;
};

static int is_digit(int byte)
{
    return byte >= '0' && byte <= '9';
}

/* Puts a digit behind a number and gives 1, or gives 0 where that would be over the greatest. */
static int append(uint64_t *value, int digit, uint64_t greatest)
{
    uint64_t next = (uint64_t)(digit - '0');

    if (*value > (greatest - next) / 10)
        return 0;
    *value = 10 * *value + next;
    return 1;
}

/* The next byte, or the one at an offset behind it; -1 where the text has ended. */
static int ahead(const struct text *text, size_t offset)
{
    return offset < text->length - text->place ? text->bytes[text->place + offset] : -1;
}

static int is_shown(int byte)
{
    return byte > ' ' && byte <= '~';
}

/* Says what stands where something else was expected. */
static void say_found(const struct text *text)
{
    size_t offset = 0;

    if (ahead(text, 0) == -1) {
        fprintf(stderr, ", but the text ends");
    } else if (ahead(text, 0) == '\n') {
        fprintf(stderr, ", but the line ends");
    } else if (is_shown(ahead(text, 0))) {
        fprintf(stderr, ", found \"");
        while (offset < 20 && is_shown(ahead(text, offset)))
            fprintf(stderr, "%c", ahead(text, offset++));
        fprintf(stderr, "\"");
    } else {
        fprintf(stderr, ", found byte %d", ahead(text, 0));
    }
}

/* Says what was expected in the line that is being read, and ends the program. */
static void slip(const struct text *text, const char *format, ...)
{
    va_list values;

    fprintf(stderr, "tivelgor: %s:%llu: expected ", text->name, (unsigned long long)text->line);
    va_start(values, format);
    vfprintf(stderr, format, values);
    va_end(values);
    say_found(text);
    fprintf(stderr, "\n");
    exit(status_failed);
}

/* Whether a word or a number would go on with the byte. */
static int is_inside(int byte)
{
    return is_digit(byte) || (byte >= 'a' && byte <= 'z') || (byte >= 'A' && byte <= 'Z');
}

static void pass_blanks(struct text *text)
{
    while (ahead(text, 0) == ' ' || ahead(text, 0) == '\t' || (ahead(text, 0) == '\r' && ahead(text, 1) == '\n'))
        text->place++;
}

static void pass_blank_lines(struct text *text)
{
    for (pass_blanks(text); ahead(text, 0) == '\n'; pass_blanks(text)) {
        text->place++;
        text->line++;
    }
}

/* Moves behind a word or sign and gives 1, or gives 0 where it is not next. */
static int take(struct text *text, const char *wanted)
{
    size_t length = 0;

    pass_blanks(text);
    while (wanted[length] != '\0' && ahead(text, length) == wanted[length])
        length++;
    if (wanted[length] != '\0' || (is_inside(wanted[0]) && is_inside(ahead(text, length))))
        return 0;
    text->place += length;
    return 1;
}

/* Moves behind a number and gives 1, or gives 0 where none is next or one that is over the greatest. */
static int take_number(struct text *text, uint64_t *value, uint64_t greatest)
{
    size_t start;

    pass_blanks(text);
    start = text->place;
    *value = 0;
    while (is_digit(ahead(text, 0)) && append(value, ahead(text, 0), greatest))
        text->place++;
    if (text->place > start && !is_inside(ahead(text, 0)))
        return 1;
    text->place = start;
    return 0;
}

static void expect(struct text *text, const char *wanted)
{
    if (!take(text, wanted))
        slip(text, "\"%s\"", wanted);
}

/* The number behind a word. */
static uint64_t expect_number(struct text *text, const char *word, uint64_t greatest)
{
    uint64_t value;

    expect(text, word);
    if (take_number(text, &value, greatest))
        return value;
    if (greatest == UINT64_MAX)
        slip(text, "a number below 2^64");
    slip(text, "a number up to %llu", (unsigned long long)greatest);
    return 0;
}

/* The word and the number with which the line of a link or a rider begins. */
static void expect_item(struct text *text, const char *word, uint64_t number)
{
    uint64_t found;
    size_t start;

    pass_blank_lines(text);
    if (take(text, word)) {
        pass_blanks(text);
        start = text->place;
        if (take_number(text, &found, UINT64_MAX) && found == number) {
            expect(text, ":");
            return;
        }
        text->place = start;
    }
    slip(text, "\"%s %llu\"", word, (unsigned long long)number);
}

static void expect_line_end(struct text *text)
{
    pass_blanks(text);
    if (ahead(text, 0) != '\n')
        slip(text, "the end of the line");
    text->place++;
    text->line++;
}

/* The end, behind as many links or riders as the text says that it has. */
static void expect_end(struct text *text, const char *items, uint64_t count)
{
    pass_blank_lines(text);
    if (ahead(text, 0) != -1)
        slip(text, "the end of the text, which says \"%s %llu\"", items, (unsigned long long)count);
}

#endif
