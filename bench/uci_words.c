/* Splits UCI text on the standard input into words, and prints how many commands and how many words it has: what
   bench/uci-text measures `bench_loads texts commands` beside. The rules are those of uci_text's read_lines; it tells of no fault
   but that there is one. Each word has memory of its own, and all words are kept to the end. */
#include <stdio.h>
#include <stdlib.h>
#include <string.h>

struct word {
    char *bytes;
    size_t length;
};

struct line {
    unsigned number;
    size_t count;
    struct word *words;
};

static void *grown(void *items, size_t count, size_t *room, size_t size) {
    if (count < *room)
        return items;
    *room = *room ? 2 * *room : 4;
    items = realloc(items, *room * size);
    if (!items)
        abort();
    return items;
}

static int is_space(char byte) {
    return byte == ' ' || byte == '\t' || byte == '\r' || byte == '\v' || byte == '\f';
}

static int is_command_end(char byte) {
    return byte == '\n' || byte == ';' || byte == '#';
}

/* Appends the value of the word at `at`, and gives the place behind that word, or NULL. */
static const char *read_word(const char *at, const char *end, char *value, size_t *length, unsigned *number) {
    size_t count = 0;
    while (at < end && !is_space(*at) && !is_command_end(*at)) {
        char byte = *at++;
        if (byte == '\'') {
            for (;; at++) {
                if (at == end || *at == 0)
                    return NULL;
                if (*at == '\'')
                    break;
                *number += *at == '\n';
                value[count++] = *at;
            }
            at++;
        } else if (byte == '"') {
            for (;; at++) {
                if (at == end || *at == 0)
                    return NULL;
                if (*at == '"')
                    break;
                int escaped = *at == '\\';
                at += escaped;
                if (at == end || *at == 0)
                    return NULL;
                *number += *at == '\n';
                if (!escaped || *at != '\n')
                    value[count++] = *at;
            }
            at++;
        } else if (byte == '\\') {
            if (at == end || *at == 0)
                return NULL;
            *number += *at == '\n';
            if (*at != '\n')
                value[count++] = *at;
            at++;
        } else if (byte == 0) {
            return NULL;
        } else {
            value[count++] = byte;
        }
    }
    *length = count;
    return at;
}

int main(void) {
    size_t size = 0, room = 0;
    char *text = NULL;
    for (;;) {
        if (size == room) {
            room = room ? 2 * room : 65536;
            text = realloc(text, room);
            if (!text)
                abort();
        }
        size_t got = fread(text + size, 1, room - size, stdin);
        if (got == 0)
            break;
        size += got;
    }
    const char *at = text, *end = text + size;
    char *value = malloc(size + 1);
    if (!value)
        abort();
    struct line *lines = NULL;
    size_t count = 0, line_room = 0, words = 0;
    unsigned number = 1;
    for (;;) {
        while (at < end && (is_space(*at) || is_command_end(*at))) {
            if (*at == '#') {
                while (at < end && *at != '\n' && *at != 0)
                    at++;
                if (at < end && *at == 0)
                    goto fault;
            } else {
                number += *at++ == '\n';
            }
        }
        if (at == end)
            break;
        lines = grown(lines, count, &line_room, sizeof *lines);
        struct line *line = &lines[count++];
        size_t word_room = 0;
        line->number = number;
        line->count = 0;
        line->words = NULL;
        while (at < end && !is_command_end(*at)) {
            size_t length;
            at = read_word(at, end, value, &length, &number);
            if (!at)
                goto fault;
            line->words = grown(line->words, line->count, &word_room, sizeof *line->words);
            struct word *word = &line->words[line->count++];
            word->length = length;
            word->bytes = malloc(length ? length : 1);
            if (!word->bytes)
                abort();
            memcpy(word->bytes, value, length);
            words++;
            while (at < end && is_space(*at))
                at++;
        }
    }
    printf("%zu commands, %zu words\n", count, words);
    return 0;
fault:
    printf("fault\n");
    return 1;
}
