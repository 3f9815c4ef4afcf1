/* Edits a font by the calls of the library: edit SOURCE. It prints each command's answer, and how long the font's file is.
 *
 *     cc edit.c $(pkg-config --cflags --libs t1edit) -o edit
 *
 * A buffer that is too small for what is told is made greater, and the answer asked for again. */
#include <stdint.h>
#include <stdio.h>
#include <stdlib.h>
#include <string.h>
#include <t1edit.h>

struct text {
    uint8_t *bytes;
    size_t room, len;
};

static void make_room(struct text *text, size_t room) {
    if (room <= text->room) return;
    text->bytes = realloc(text->bytes, room);
    if (!text->bytes) exit(4);
    text->room = room;
}

/* A whole file, or nothing. */
static struct text file(const char *path) {
    struct text text = {0};
    FILE *file = fopen(path, "rb");
    if (!file) return text;
    do {
        make_room(&text, 2 * text.len + 4096);
        text.len += fread(text.bytes + text.len, 1, text.room - text.len, file);
    } while (!feof(file) && !ferror(file));
    fclose(file);
    return text;
}

/* The answer to a command, in text. */
static void ask(t1edit_session *session, const char *line, const char *body, struct text *text) {
    uint32_t status = t1edit_perform(session, (const uint8_t *)line, strlen(line), (const uint8_t *)body, strlen(body),
                                     text->bytes, text->room, &text->len);
    while (status == T1EDIT_UNTOLD || (status == T1EDIT_DONE && text->len > text->room)) {
        make_room(text, text->len);
        status = t1edit_answer(session, text->bytes, text->room, &text->len);
    }
    if (status != T1EDIT_DONE) exit(4);
}

int main(int count, char **arguments) {
    static const char *const COMMANDS[][2] = {
        {"replace glyph A", "10 600 hsbw 300 hlineto 700 vlineto closepath endchar\n"},
        {"kern A V -92", ""},
        {"remove glyph nosuch", ""},
        {"show metrics A", ""},
        {"print pfb", ""},
    };
    struct text source = count == 2 ? file(arguments[1]) : (struct text){0}, text = {0};
    if (!source.bytes) return 2;
    make_room(&text, 64);

    t1edit_session session = {0};
    uint32_t status = t1edit_open(source.bytes, source.len, (const uint8_t *)"", 0, &session, text.bytes, text.room, &text.len);
    free(source.bytes); /* the session has its own */
    if (status == T1EDIT_REFUSED) printf("refused %.*s\n", (int)(text.len < text.room ? text.len : text.room), text.bytes);
    if (status != T1EDIT_DONE) return status == T1EDIT_REFUSED ? 1 : 4;

    for (size_t at = 0; at < sizeof COMMANDS / sizeof *COMMANDS; at++) {
        ask(&session, COMMANDS[at][0], COMMANDS[at][1], &text);
        if (text.len < 100) printf("%s: %.*s", COMMANDS[at][0], (int)text.len, text.bytes);
        else printf("%s: %zu bytes\n", COMMANDS[at][0], text.len);
    }
    t1edit_close(&session);
    free(text.bytes);
    return 0;
}
