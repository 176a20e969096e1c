/* A small console: says whether any bench can refuse a command of a script, and shows that command in its line.
 *
 *   console CAPACITY FILE
 *
 * Exit status: 0 where no command can be refused, 1 where one can, 2 for wrong arguments or a file that cannot be read.
 */
#include "glazeotter.h"

#include <errno.h>
#include <inttypes.h>
#include <stdio.h>
#include <stdlib.h>
#include <string.h>

enum { FINE = 0, REFUSED = 1, FAILED = 2 };

/* How a line is shown: columns of the screen, those before the line, and those of the two points at a cut. */
enum { SCREEN = 100, INDENT = 2, CUT = 2 };

/* The most script bytes that script_why takes. */
enum { SCRIPT_WHY_MOST = 60000 };

/* What the caller asks for. */
struct request {
    uint32_t capacity;
    const char *file;
};

/* A file's bytes, in memory that may have room for more. */
struct script {
    uint8_t *bytes;
    size_t length;
    size_t room;
};

/* Some of a script's bytes: from one place up to before another. */
struct range {
    size_t from;
    size_t end;
};

/* The check's verdict, and where what it names stands in the script. */
struct verdict {
    uint32_t refusal; /* 0 where nothing can be refused; then the rest says nothing */
    uint64_t line;
    uint32_t place;
    struct range text;    /* the line, without its LF */
    struct range command; /* the command, without space and CR at its ends; empty where there is none */
};

/* Reads digits as a 32-bit number; 0 where the text is anything else or the number is too large. */
static int read_capacity(const char *text, uint32_t *capacity)
{
    uint64_t value = 0;
    const char *at;

    if (*text == '\0')
        return 0;
    for (at = text; *at != '\0'; at++) {
        if (*at < '0' || *at > '9')
            return 0;
        value = value * 10 + (uint64_t)(*at - '0');
        if (value > UINT32_MAX)
            return 0;
    }
    *capacity = (uint32_t)value;
    return 1;
}

/* Reads the arguments; 0, and a complaint, where they are wrong. */
static int read_arguments(int argc, char **argv, struct request *asked)
{
    if (argc != 3) {
        fprintf(stderr, "usage: console CAPACITY FILE\n");
        return 0;
    }
    if (!read_capacity(argv[1], &asked->capacity)) {
        fprintf(stderr, "console: the capacity '%s' is not a number from 0 to 4294967295 in digits\n", argv[1]);
        return 0;
    }
    asked->file = argv[2];
    return 1;
}

/* Makes room for at least one byte more; 0 where there is no memory. */
static int grow(struct script *s)
{
    size_t room = s->room == 0 ? 65536 : s->room * 2;
    uint8_t *bytes;

    if (room <= s->room)
        return 0;
    bytes = realloc(s->bytes, room);
    if (bytes == NULL)
        return 0;
    s->bytes = bytes;
    s->room = room;
    return 1;
}

/* Reads a whole file, however long. Returns NULL, or what went wrong. */
static const char *read_all(FILE *file, struct script *s)
{
    for (;;) {
        size_t got;

        if (s->length == s->room && !grow(s))
            return "not enough memory";
        errno = 0;
        got = fread(s->bytes + s->length, 1, s->room - s->length, file);
        s->length += got;
        if (ferror(file))
            return errno != 0 ? strerror(errno) : "reading failed";
        if (feof(file))
            return NULL;
    }
}

/* Opens a file and reads all of it; 0, and a complaint, where that fails. */
static int read_file(const char *name, struct script *s)
{
    const char *wrong;
    FILE *file;

    errno = 0;
    file = fopen(name, "rb");
    if (file == NULL) {
        wrong = errno != 0 ? strerror(errno) : "opening failed";
    } else {
        wrong = read_all(file, s);
        fclose(file);
    }
    if (wrong != NULL)
        fprintf(stderr, "console: %s: %s\n", name, wrong);
    return wrong == NULL;
}

/* The part of this number, from 1, of those that a separator divides; the last one where there are fewer. */
static struct range part_of(const uint8_t *bytes, struct range whole, uint8_t separator, uint64_t number)
{
    struct range part = whole;

    for (;;) {
        const uint8_t *found = memchr(bytes + part.from, separator, whole.end - part.from);

        part.end = found == NULL ? whole.end : (size_t)(found - bytes);
        if (found == NULL || number <= 1)
            return part;
        part.from = part.end + 1;
        number--;
    }
}

/* Whether the module drops a byte wherever it stands. */
static int is_dropped(uint8_t byte)
{
    return byte == ' ' || byte == '\r';
}

/* A range without the dropped bytes at its end. */
static struct range without_end(const uint8_t *bytes, struct range r)
{
    while (r.end > r.from && is_dropped(bytes[r.end - 1]))
        r.end--;
    return r;
}

/* A range without the dropped bytes at both ends. */
static struct range without_ends(const uint8_t *bytes, struct range r)
{
    while (r.from < r.end && is_dropped(bytes[r.from]))
        r.from++;
    return without_end(bytes, r);
}

/* Reads the check's answer, and finds the bytes of the line and of the command that it names. */
static struct verdict find(const struct script *s, uint64_t answer)
{
    struct range whole = {0, s->length};
    struct verdict v = {0, 0, 0, {0, 0}, {0, 0}};

    v.refusal = glazeotter_refusal(answer);
    v.line = glazeotter_line(answer);
    v.place = glazeotter_place(answer);
    if (v.line > 0)
        v.text = part_of(s->bytes, whole, '\n', v.line);
    if (v.place > 0)
        v.command = without_ends(s->bytes, part_of(s->bytes, v.text, ';', v.place));
    return v;
}

/* What a refusal of a command means. */
static const char *meaning(uint32_t refusal)
{
    switch (refusal) {
    case GLAZEOTTER_MALFORMED:
        return "no command of this module, or not in its form";
    case GLAZEOTTER_OUT_OF_RANGE:
        return "a value out of range or not whole";
    case GLAZEOTTER_NOT_ALLOWED:
        return "not allowed in some state that a bench can be in";
    case GLAZEOTTER_NO_RESET:
        return "the script does not begin with *RST";
    default:
        return "unknown";
    }
}

/* The bytes of a line that are shown: all, or as many as there are columns, with the marked ones among them. */
static struct range window_of(struct range line, struct range mark)
{
    size_t columns = SCREEN - INDENT;
    size_t marked = mark.end - mark.from;
    size_t before;
    struct range window = line;

    if (line.end - line.from <= columns)
        return window;
    columns -= 2 * CUT;
    before = marked < columns ? (columns - marked) / 2 : 0;
    if (mark.from - line.from > before)
        window.from = mark.from - before;
    if (window.from > line.end - columns)
        window.from = line.end - columns;
    window.end = window.from + columns;
    return window;
}

/* Whether a byte does not print. A CR, which the module drops as it drops a space, is not among them. */
static int is_hidden(uint8_t byte)
{
    return byte != '\r' && (byte < ' ' || byte > '~');
}

/* What is shown for a byte, one column wide: a point where it does not print, a space for a CR. */
static int shown(uint8_t byte)
{
    if (is_hidden(byte))
        return '.';
    return byte == '\r' ? ' ' : byte;
}

/* Shows the bytes of a line in a window, two points where it is cut. */
static void print_window(const uint8_t *bytes, struct range line, struct range window)
{
    size_t at;

    printf("%*s%s", INDENT, "", window.from > line.from ? ".." : "");
    for (at = window.from; at < window.end; at++)
        putchar(shown(bytes[at]));
    printf("%s\n", window.end < line.end ? ".." : "");
}

/* Marks bytes of the line above: ^ under the first, ~ under each of the others that the window shows. */
static void print_mark(struct range line, struct range window, struct range mark)
{
    size_t column = INDENT + mark.from - window.from;
    size_t at;

    if (window.from > line.from)
        column += CUT;
    printf("%*s^", (int)column, "");
    for (at = mark.from + 1; at < mark.end && at < window.end; at++)
        putchar('~');
    putchar('\n');
}

/* Names the first byte of a window that does not print, where there is one. */
static void print_hidden(const uint8_t *bytes, struct range line, struct range window)
{
    size_t at = window.from;

    while (at < window.end && !is_hidden(bytes[at]))
        at++;
    if (at < window.end)
        printf("the line's byte %" PRIu64 ", hex %02x, does not print; each such byte is shown as a point\n",
               (uint64_t)(at - line.from + 1), bytes[at]);
}

/* Shows a line, or what of it has room, and marks bytes of it where there are any to mark. */
static void print_line(const uint8_t *bytes, struct range line, struct range mark)
{
    struct range window = window_of(line, mark);

    print_window(bytes, line, window);
    if (mark.from < mark.end)
        print_mark(line, window, mark);
    print_hidden(bytes, line, window);
}

/* Whether a shell reads a text as one word and as nothing but its bytes. */
static int is_plain(const char *text)
{
    static const char plain[] = "abcdefghijklmnopqrstuvwxyzABCDEFGHIJKLMNOPQRSTUVWXYZ0123456789_./-+,:@%=";

    return text[strspn(text, plain)] == '\0';
}

/* Writes a file's name as one word for a shell, in quotes where it needs them. */
static void print_word(const char *name)
{
    const char *at;

    if (*name == '-')
        printf("./");
    if (is_plain(name)) {
        printf("%s", name);
        return;
    }
    putchar('\'');
    for (at = name; *at != '\0'; at++) {
        if (*at == '\'')
            printf("'\\''");
        else
            putchar(*at);
    }
    putchar('\'');
}

/* Says how to see a course that shows a refusal 3: by script_why on the script's lines up to the named one. */
static void print_course_command(const struct request *asked, const struct script *s, const struct verdict *v)
{
    size_t bytes = v->text.end < s->length ? v->text.end + 1 : v->text.end;

    if (bytes > SCRIPT_WHY_MOST) {
        printf("script_why can show no course for it: it takes at most %d bytes, and the script has %" PRIu64
               " up to here\n",
               SCRIPT_WHY_MOST, (uint64_t)bytes);
        return;
    }
    printf("for a course that shows it, which script_why writes and ops replays:\n");
    printf("%*s{ echo %" PRIu32 "; head -n %" PRIu64 " ", INDENT, "", asked->capacity, v->line);
    print_word(asked->file);
    printf("; } | target/bin/script_why | tail -n +2 | target/bin/ops\n");
}

/* Says which line is too long, and shows its beginning. */
static void print_long_line(const struct script *s, const struct verdict *v)
{
    struct range nothing = {v->text.from, v->text.from};

    printf("line %" PRIu64 ": refused by %" PRIu32 ", the line has %" PRIu64 " bytes, and 256 is the most\n", v->line,
           v->refusal, (uint64_t)(v->text.end - v->text.from));
    print_line(s->bytes, v->text, nothing);
}

/* Says which command is refused and why, and shows it in its line. */
static void print_command(const struct request *asked, const struct script *s, const struct verdict *v)
{
    int is_empty = v->command.from == v->command.end;

    printf("line %" PRIu64 ", command %" PRIu32 ": refused by %" PRIu32 ", %s%s\n", v->line, v->place, v->refusal,
           meaning(v->refusal), is_empty ? ": it has no command" : "");
    if (!is_empty)
        print_line(s->bytes, without_end(s->bytes, v->text), v->command);
    if (v->refusal == GLAZEOTTER_NOT_ALLOWED)
        print_course_command(asked, s, v);
}

/* Writes the verdict in words, and gives the exit status. */
static int print_verdict(const struct request *asked, const struct script *s, const struct verdict *v)
{
    if (v->refusal == 0)
        printf("fine: no bench can refuse a command of this script\n");
    else if (v->refusal == GLAZEOTTER_BAD_CAPACITY)
        printf("refused by %" PRIu32 ", the capacity %" PRIu32 " is not 1 to 16383\n", v->refusal, asked->capacity);
    else if (v->refusal == GLAZEOTTER_LONG_SCRIPT_LINE)
        print_long_line(s, v);
    else
        print_command(asked, s, v);
    if (fflush(stdout) != 0 || ferror(stdout)) {
        fprintf(stderr, "console: the verdict could not be written\n");
        return FAILED;
    }
    return v->refusal == 0 ? FINE : REFUSED;
}

/* Reads the arguments and the file, has the script checked, finds what the check names, and prints it. */
int main(int argc, char **argv)
{
    struct request asked;
    struct script s = {NULL, 0, 0};
    struct verdict v;
    int status = FAILED;

    if (!read_arguments(argc, argv, &asked))
        return FAILED;
    if (read_file(asked.file, &s)) {
        v = find(&s, glazeotter_check(s.bytes, s.length, asked.capacity));
        status = print_verdict(&asked, &s, &v);
    }
    free(s.bytes);
    return status;
}
