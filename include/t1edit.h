/* t1edit: an incremental assembler for Adobe Type 1 fonts, as a library.
 *
 * A source is the readable form of a font that t1disasm writes (docs/SOURCE.md), pairs are the bytes of a kerning file: the KPX
 * lines of an AFM file, of length 0 where there is none. A text is given as a pointer, which isn't null, and a length; bytes are
 * as they are in a file, and no byte 0 ends one.
 *
 * What a call tells goes into a buffer of the caller's: as many of its bytes as there is room for, in out, and how many it has,
 * in *len. Where *len is greater than room, the answer of a session is told again by t1edit_answer; any other call is made
 * again. out isn't null, also where room is 0. Where nothing is told, *len stays as it was.
 *
 * The caller owes, and nothing checks: that no pointer is null and each leads to so many bytes; that out, len and the session
 * are its own during a call, and no two of them overlap; that one call at a time is made on a session; and that malloc, realloc
 * and free are one allocator's, which aligns a block to each power of two up to 16 that divides its size. docs/LIBRARY.md says
 * more of it, and what is proved.
 */
#ifndef T1EDIT_H
#define T1EDIT_H

#include <stddef.h>
#include <stdint.h>

#ifdef __cplusplus
extern "C" {
#endif

/* The version of these calls. */
#define T1EDIT_VERSION 1

/* What a call answers. */
enum {
    /* What was asked for was done. */
    T1EDIT_DONE = 0,
    /* The source, the pairs or the font's file have a fault. The first one is told by its code and its place, where it has one:
     * "F22 subr 7", "F20 glyph A", "F7 line 90", "F1"; of a font's file "D7 glyph A", "D5 byte 1200"; t1edit_faults tells all.
     * docs/FAULTS.md has the codes. */
    T1EDIT_REFUSED = 1,
    /* There wasn't memory enough; nothing was done, and nothing told. */
    T1EDIT_MEMORY = 2,
    /* Of t1edit_perform alone: the command was performed, and there wasn't memory enough to tell its answer. The session keeps
     * the answer, and t1edit_answer tells it. */
    T1EDIT_UNTOLD = 3,
    /* There is no session; or the texts aren't those of one command; or a length of segments is out of its range. Nothing was
     * done, and nothing told. */
    T1EDIT_MISUSED = 4
};

/* A session: a font and its kerning pairs, kept current under edits. {0} is none, and what a session is before it is opened.
 * It is its caller's, who doesn't copy it while it is open. For one call at a time. */
typedef struct t1edit_session {
    void *at;
} t1edit_session;

/* Tells the version of the library's calls, which is T1EDIT_VERSION where they are those of this header. */
uint32_t t1edit_version(void);

/* Opens a session on a source and its pairs, or tells the first fault: of reading the source, of the pairs, of a body, or of a
 * glyph. The session has a copy of its own of the source: once it is open the caller's bytes aren't read again. A session that
 * is open there is closed first, whatever the answer: DONE, REFUSED or MEMORY. */
uint32_t t1edit_open(const uint8_t *source, size_t source_len, const uint8_t *pairs, size_t pairs_len,
                     t1edit_session *session, uint8_t *out, size_t room, size_t *len);

/* Performs one command: its line, without the line's end, and the body that replace and add of a glyph or a Subr take, in place
 * of the lines up to the one with a dot (docs/SESSION.md has all commands). It tells the answer, byte for byte as a session
 * writes it: "ok\n", "refused E4\n", "refused F20 subr 7\n", "refused memory\n", or "data LENGTH\n", LENGTH bytes and "\n". A
 * command that is refused has changed nothing, and the answer is DONE all the same. A line without words is no command, and has
 * an answer of no bytes.
 *
 * MISUSED are a line with LF or CR in it, a body with a line that is a dot, blanks aside, and a body for a line that takes none:
 * nothing of them is performed. MEMORY: there was no memory for a copy of the body. Then, and at MISUSED, the session and the
 * answer that it keeps are as they were. */
uint32_t t1edit_perform(t1edit_session *session, const uint8_t *line, size_t line_len, const uint8_t *body, size_t body_len,
                        uint8_t *out, size_t room, size_t *len);

/* Tells the answer to the last command of an open session again: DONE, MEMORY, or MISUSED where there is no session. Before the
 * first command it has no bytes. */
uint32_t t1edit_answer(t1edit_session *session, uint8_t *out, size_t room, size_t *len);

/* Closes a session, and gives back all of its memory. Edits that were not printed are lost. Where there is no session it does
 * nothing. */
void t1edit_close(t1edit_session *session);

/* Tells the PFB file of a source, each part of it one segment (docs/PFB.md), or the first fault of reading or of a body: DONE,
 * REFUSED or MEMORY. No glyph is run. */
uint32_t t1edit_assemble(const uint8_t *source, size_t source_len, uint8_t *out, size_t room, size_t *len);

/* The same, with each part in segments of size bytes, from 1 to 2147483647, the last with the rest. MISUSED is any other size. */
uint32_t t1edit_assemble_blocks(const uint8_t *source, size_t source_len, size_t size, uint8_t *out, size_t room, size_t *len);

/* Tells the PFA file of a source, its encrypted part in hexadecimal. */
uint32_t t1edit_assemble_pfa(const uint8_t *source, size_t source_len, uint8_t *out, size_t room, size_t *len);

/* Runs the glyphs of a source, and tells its AFM file (docs/AFM.md), which has the pairs, or the first fault. */
uint32_t t1edit_measure(const uint8_t *source, size_t source_len, const uint8_t *pairs, size_t pairs_len, uint8_t *out,
                        size_t room, size_t *len);

/* Judges a source and its pairs as t1edit_measure does: DONE, with nothing told and *len as it was, where they have an AFM file;
 * else the first fault. */
uint32_t t1edit_check(const uint8_t *source, size_t source_len, const uint8_t *pairs, size_t pairs_len, uint8_t *out,
                      size_t room, size_t *len);

/* Tells the fault of a source's pairs, where they have one, and then every fault of the source, a line each that ends with LF:
 * DONE where there is none, with a text of no bytes, REFUSED where there are some, or MEMORY. It is DONE exactly where
 * t1edit_check is. A line has fields with a byte 9, a tab, between two of them:
 *
 *     1  the text that has the fault: "pairs" or "source"
 *     2  the line, from 1
 *     3  the column: bytes of the line, from 1
 *     4  the code: "F20"
 *     5  the place: "glyph A", "subr 7", "line 90", or no bytes
 *     6  the word that stands there, or no bytes where no word is at fault
 *     7  what more is known: "hlineto?", "no Subr 9", "1 value, 2 wanted", or no bytes
 *     8  the composites that stand on a glyph which this fault is the first to name, in the order of the source, with a space
 *        between two of them: "Aacute Agrave", or no bytes
 *
 * and then, of a fault that runs met in a Subr, a field for each glyph that met it: the glyph, and the Subrs that its run had
 * entered, in turn, as "glyph H subr 4 subr 9"; no name has a space in it. A byte that isn't printed, spaces aside, is told as
 * "\x" and two hexadecimal digits. */
uint32_t t1edit_faults(const uint8_t *source, size_t source_len, const uint8_t *pairs, size_t pairs_len, uint8_t *out,
                       size_t room, size_t *len);

/* Tells the readable source of a font's file, PFB, PFA or raw (docs/DISASSEMBLE.md), or the file's first fault. */
uint32_t t1edit_disassemble(const uint8_t *font, size_t font_len, uint8_t *out, size_t room, size_t *len);

#ifdef __cplusplus
}
#endif

#endif
