/* The least that assembling and measuring take: a loop in C over the words of a source, without checks, for fonts as those of
 * fonts.py, whose bodies have no Subrs, flexes or composites.
 *
 * usage: floor assemble|measure SOURCE */
#include <fcntl.h>
#include <stdint.h>
#include <stdio.h>
#include <stdlib.h>
#include <string.h>
#include <sys/stat.h>
#include <unistd.h>

typedef unsigned char byte;

static const char *const COMMANDS[] = {"hsbw", "endchar", "rmoveto", "rlineto", "rrcurveto", "hlineto", "vlineto",
                                       "vhcurveto", "hvcurveto", "closepath", "div", "return", "hmoveto", "vmoveto"};
static const short CODES[] = {13, 14, 21, 5, 8, 6, 7, 30, 31, 9, 1212, 11, 22, 4};
enum { HSBW, ENDCHAR, RMOVETO, RLINETO, RRCURVETO, HLINETO, VLINETO, VHCURVETO, HVCURVETO, CLOSEPATH, DIV };

static byte *text, *end, *out;

static byte *encrypted(byte *from, byte *to, uint16_t key) {
    for (; from < to; from++) {
        *from ^= key >> 8;
        key = (uint16_t)((*from + key) * 52845u + 22719u);
    }
    return to;
}

static int command_at(const byte *word, long length) {
    for (int at = 0; at < 14; at++)
        if (COMMANDS[at][0] == word[0] && (long)strlen(COMMANDS[at]) == length && !memcmp(COMMANDS[at], word, length))
            return at;
    exit(1);
}

/* The next word at or after a place of a body: a number (0), a command (1) or the body's end (2). */
static int next(byte **at, long *value) {
    byte *it = *at;
    while (*it <= ' ')
        it++;
    if (*it == '}')
        return *at = it, 2;
    byte *word = it;
    long sign = *it == '-' ? -1 : 1, sum = 0;
    it += sign < 0;
    if (*it >= '0' && *it <= '9') {
        for (; *it > ' '; it++)
            sum = sum * 10 + *it - '0';
        *value = sign * sum;
        return *at = it, 0;
    }
    while (*it > ' ')
        it++;
    *value = command_at(word, it - word);
    return *at = it, 1;
}

static byte *put_number(byte *to, long v) {
    if (v >= -107 && v <= 107)
        *to++ = (byte)(v + 139);
    else if (v >= 108 && v <= 1131)
        v -= 108, *to++ = (byte)(247 + (v >> 8)), *to++ = (byte)v;
    else if (v >= -1131 && v <= -108)
        v = -v - 108, *to++ = (byte)(251 + (v >> 8)), *to++ = (byte)v;
    else
        *to++ = 255, *to++ = (byte)(v >> 24), *to++ = (byte)(v >> 16), *to++ = (byte)(v >> 8), *to++ = (byte)v;
    return to;
}

static byte *assembled(byte *body, byte *to, byte **after) {
    static byte code[1 << 20];
    byte *put = code + 4;
    long value;
    int kind;
    memset(code, 0, 4);
    while ((kind = next(&body, &value)) != 2) {
        if (kind == 0)
            put = put_number(put, value);
        else if (CODES[value] >= 1200)
            *put++ = 12, *put++ = (byte)(CODES[value] - 1200);
        else
            *put++ = (byte)CODES[value];
    }
    encrypted(code, put, 4330);
    to += sprintf((char *)to, "%ld RD ", (long)(put - code));
    memcpy(to, code, put - code);
    *after = body + 1;
    return to + (put - code);
}

struct side { double low, high, at; };

static void reach(struct side *s, double v) {
    s->low = v < s->low ? v : s->low;
    s->high = v > s->high ? v : s->high;
}

/* The 65 points of a curve along an axis, where its control points reach past its ends. */
static void curve(struct side *s, double a, double b, double c) {
    double p = s->at, q = p + a, r = q + b, e = r + c, low = p < e ? p : e, high = p < e ? e : p;
    reach(s, p), reach(s, e);
    if (q < low || q > high || r < low || r > high) {
        double linear = 3 * a / 64, square = 3 * (b - a) / 4096, cube = (a - 2 * b + c) / 262144;
        double first = cube + square + linear, second = 6 * cube + 2 * square, third = 6 * cube;
        for (int k = 1; k < 64; k++) {
            p += first, first += second, second += third;
            reach(s, p);
        }
    }
    s->at = e;
}

static void line(struct side *s, double by) { reach(s, s->at), s->at += by, reach(s, s->at); }

static byte *measured(byte *body, byte *to, byte *name, long name_length) {
    struct side x = {1e9, -1e9, 0}, y = {1e9, -1e9, 0};
    double v[24], width = 0;
    long value;
    int kind, n = 0;
    while ((kind = next(&body, &value)) != 2) {
        if (kind == 0) {
            v[n++] = value;
            continue;
        }
        if (value == DIV) {
            n--, v[n - 1] /= v[n];
            continue;
        }
        switch (value) {
        case HSBW: x.at = v[0], width = v[1]; break;
        case RMOVETO: x.at += v[0], y.at += v[1]; break;
        case RLINETO: line(&x, v[0]), line(&y, v[1]); break;
        case HLINETO: line(&x, v[0]), line(&y, 0); break;
        case VLINETO: line(&x, 0), line(&y, v[0]); break;
        case RRCURVETO: curve(&x, v[0], v[2], v[4]), curve(&y, v[1], v[3], v[5]); break;
        case VHCURVETO: curve(&x, 0, v[1], v[3]), curve(&y, v[0], v[2], 0); break;
        case HVCURVETO: curve(&x, v[0], v[1], 0), curve(&y, 0, v[2], v[3]); break;
        }
        n = 0;
    }
    if (x.low > x.high)
        x.low = x.high = y.low = y.high = 0;
    return to + sprintf((char *)to, "C -1 ; WX %ld ; N %.*s ; B %ld %ld %ld %ld ;\n", (long)width, (int)name_length, name,
                        (long)x.low, (long)y.low, (long)x.high, (long)y.high);
}

int main(int count, char **words) {
    struct stat about;
    int file = open(words[2], O_RDONLY), assembles = !strcmp(words[1], "assemble");
    if (count != 3 || file < 0 || fstat(file, &about) != 0)
        return 3;
    text = malloc(about.st_size + 1), out = malloc(about.st_size + 4096);
    for (long got, at = 0; (got = read(file, text + at, about.st_size - at)) > 0;)
        at += got;
    end = text + about.st_size, *end = 0;
    byte *at = (byte *)strstr((char *)text, "currentfile eexec\n") + 18, *to = out;
    memcpy(to, text, at - text), to += at - text;
    byte *private = to;
    memset(to, 0, 4), to += 4;
    while (at < end) {
        byte *stop = memchr(at, '\n', end - at);
        stop = stop ? stop : end;
        byte *brace = memchr(at, '{', stop - at);
        int entry = brace && (*at == '/' || *at == 'd') && brace + 1 == stop;
        if (!assembles) {
            if (entry && *at == '/')
                to = measured(brace + 1, to, at + 1, brace - at - 2);
        } else if (entry) {
            memcpy(to, at, brace - at), to += brace - at;
            to = assembled(brace + 1, to, &at);
            stop = memchr(at, '\n', end - at);
        }
        if (assembles)
            memcpy(to, at, stop + 1 - at), to += stop + 1 - at;
        at = stop + 1;
    }
    if (assembles)
        encrypted(private, to, 55665);
    for (byte *from = assembles ? out : private + 4; from < to; from += 4096)
        if (write(1, from, to - from < 4096 ? to - from : 4096) < 0)
            return 3;
    return 0;
}
