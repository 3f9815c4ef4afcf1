/* A client of `t1edit session` in C11 and POSIX; a pair of sockets does what three pipes would. A host takes all but main.
 * Each call is true, or false, and then `why` says why. docs/SESSION.md, "For who writes a client", has the reasons.
 *     cc -std=c11 -o client examples/client.c && ./client SOURCE GLYPH BODY */
#define _POSIX_C_SOURCE 200809L
#include <errno.h>
#include <poll.h>
#include <stdbool.h>
#include <stdio.h>
#include <stdlib.h>
#include <string.h>
#include <sys/socket.h>
#include <sys/wait.h>
#include <unistd.h>
#define WORDS(...) ((const char *const[]){__VA_ARGS__, NULL})

struct session {
    int process, end, status;         /* end is our socket: the other one is its input, its output and its standard error */
    char *text, ending[200];          /* what was read of its answers; how it ended */
    size_t taken, held, room, length; /* of the text so much was taken, is held, has room; the length of the data */
    const char *data, *why;           /* what the last print gave, until the next call */
};

static bool fails(struct session *s, const char *why) { return s->why = why, false; }

static bool ended(struct session *s) { /* its line on standard error says why, or its status */
    while (s->process > 0 && waitpid(s->process, &s->status, 0) < 0 && errno == EINTR) {}
    if (WIFSIGNALED(s->status)) snprintf(s->ending, sizeof s->ending, "the session ended with signal %d", WTERMSIG(s->status));
    else if (!*s->ending) snprintf(s->ending, sizeof s->ending, "the session ended with status %d", WEXITSTATUS(s->status));
    return s->process = 0, fails(s, s->ending);
}

/* Writes a text, or without one takes the next answer. Reads meanwhile: a session whose answers aren't read reads no more. */
static bool exchange(struct session *s, const char *text) {
    while (!text || *text) {
        if (s->taken == s->held) s->taken = s->held = 0;
        size_t room = s->held < s->room ? s->room : 2 * s->room + 65536;
        char *grown = room > s->room ? realloc(s->text, room) : s->text;
        if (!grown) return fails(s, "out of memory: the session is out of step, and can only be closed");
        s->text = grown, s->room = room;
        char *line = s->text + s->taken, *end = text ? NULL : memchr(line, '\n', s->held - s->taken);
        size_t data = end && !strncmp(line, "data ", 5) ? strtoull(line + 5, NULL, 10) + 1 : 0; /* and its LF */
        if (end && data < (size_t)(s->text + s->held - end)) {
            *end = '\0', s->taken = (size_t)(end + 1 + data - s->text);
            s->data = end + 1, s->length = data ? data - 1 : 0;
            if (data || !strcmp(line, "ok")) return true;
            if (!strncmp(line, "refused ", 8)) return fails(s, line);
            snprintf(s->ending, sizeof s->ending, "%s", line); /* (no answer: it was said on standard error) */
            continue;
        }
        poll(&(struct pollfd){s->end, text ? POLLIN | POLLOUT : POLLIN, 0}, 1, s->process > 0 ? -1 : 0);
        ssize_t put, got = recv(s->end, s->text + s->held, s->room - s->held, MSG_DONTWAIT);
        if (got == 0 || s->process <= 0) return text || ended(s); /* (that a text isn't read is told at its answer) */
        if (got > 0) s->held += (size_t)got;
        if (text && (put = send(s->end, text, strlen(text), MSG_NOSIGNAL | MSG_DONTWAIT)) > 0) text += put;
    }
    return true;
}

/* Writes a command and its body, or NULL; not what would be taken for other commands, or let the session wait for more. */
static bool session_send(struct session *s, const char *const words[], const char *body) {
    for (size_t i = 0; words[i]; i++)
        for (const char *at = words[i]; at == words[i] || *at; at++)
            if ((unsigned char)*at <= ' ') return fails(s, "a word that is empty, or has a blank or a line end in it");
    bool takes_body = words[0] && words[1] && (!strcmp(words[0], "add") || !strcmp(words[0], "replace")) &&
                      (!strcmp(words[1], "glyph") || !strcmp(words[1], "subr"));
    if (!words[0] || takes_body != (body != NULL)) return fails(s, "a command without its body, or with one that it doesn't take");
    for (const char *at = body; at && *(at += strspn(at, "\t\f\r\n ")); at = strpbrk(at, "\r\n"))
        if (*at == '.' && strchr("\r\n", at[1 + strspn(at + 1, "\t\f ")])) return fails(s, "a body with a line '.'");
    char *text = NULL;
    FILE *lines = open_memstream(&text, &s->length);
    for (; lines && *words; words++) fprintf(lines, "%s%s", *words, words[1] ? " " : "\n");
    if (lines && body) fprintf(lines, "%s\n.\n", body);
    bool done = lines && !fclose(lines) ? exchange(s, text) : fails(s, "out of memory");
    return free(text), done;
}

static bool session_take(struct session *s) { return exchange(s, NULL); }
static void session_close(struct session *s) { close(s->end), ended(s), free(s->text); } /* (also where it didn't open) */

static bool session_open(struct session *s, const char *source, const char *kern) { /* a kerning file, or NULL */
    const char *program = getenv("T1EDIT") ? getenv("T1EDIT") : "t1edit";
    int ends[2] = {-1, -1}, process = socketpair(AF_UNIX, SOCK_STREAM | SOCK_CLOEXEC, 0, ends) ? -1 : fork();
    if (process == 0 && dup2(ends[1], 0) == 0 && dup2(ends[1], 1) == 1 && dup2(ends[1], 2) == 2)
        execlp(program, program, "session", "--kern", kern ? kern : "/dev/null", "--", source, NULL);
    if (process == 0) perror(program), _exit(127);
    *s = (struct session){.process = process, .end = ends[0], .why = strerror(errno)};
    close(ends[1]);
    return process > 0 && session_send(s, WORDS("print", "kern"), NULL) && session_take(s); /* (a refused font has no answer) */
}

int main(int count, char **words) {
    struct session font;
    if (count != 4) return fputs("usage: client SOURCE GLYPH BODY\n", stderr), 2;
    bool done = session_open(&font, words[1], NULL) && session_send(&font, WORDS("replace", "glyph", words[2]), words[3]) &&
                session_take(&font) && session_send(&font, WORDS("print", "afm"), NULL) && session_take(&font);
    if (done) fwrite(font.data, 1, font.length, stdout);
    else fprintf(stderr, "client: %s\n", font.why);
    session_close(&font);
    return done ? 0 : 1;
}
