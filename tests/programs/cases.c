/*
 * Gives every case of sheets.txt to bin/read-sheet and every case of orders.txt to bin/order, and compares all that is printed, and
 * the exit status. The two files say how they are read. Runs in the root of the repository, and writes to target/programs.
 */
#include <stdio.h>
#include <stdlib.h>
#include <string.h>
#include <sys/wait.h>

#define INPUT "target/programs/input"
#define OUTPUT "target/programs/output"
#define VERDICT "target/programs/verdict"

static unsigned long cases, failed;

/* ---- texts ---- */

enum { MOST = 32768, SHOWN = 400 };

struct text {
    unsigned char at[MOST];
    size_t n;
};

/* Puts a byte behind the text, if there is room. */
static int put(struct text *t, int byte)
{
    if (t->n == MOST)
        return 0;
    t->at[t->n++] = (unsigned char)byte;
    return 1;
}

static int begins(const struct text *t, const struct text *with)
{
    return with->n <= t->n && memcmp(t->at, with->at, with->n) == 0;
}

/* Prints a byte as the case files write it. */
static void show_byte(int byte)
{
    switch (byte) {
    case '\n':
        printf("\\n");
        break;
    case '\r':
        printf("\\r");
        break;
    case '\0':
        printf("\\0");
        break;
    default:
        printf(byte < ' ' || byte > '~' ? "<%d>" : "%c", byte);
    }
}

/* Prints how long an answer is, and how it begins. */
static void show(const char *whose, int status, size_t bytes, const struct text *t)
{
    size_t i;
    printf("  %s: exit status %d, %lu bytes: \"", whose, status, (unsigned long)bytes);
    for (i = 0; i < t->n && i < SHOWN; i++)
        show_byte(t->at[i]);
    printf(i < bytes ? "\" and more\n" : "\"\n");
}

static void write_text(const char *path, const struct text *t)
{
    FILE *f = fopen(path, "wb");
    if (f == NULL || fwrite(t->at, 1, t->n, f) != t->n || fclose(f) != 0) {
        perror(path);
        exit(2);
    }
}

static void read_text(const char *path, struct text *t)
{
    FILE *f = fopen(path, "rb");
    if (f == NULL) {
        perror(path);
        exit(2);
    }
    t->n = fread(t->at, 1, MOST, f);
    fclose(f);
}

/* ---- a line of a case file ---- */

struct test {
    char name[64];
    struct text read;
    struct text printed; /* of a sheet only the first line */
    int sheet;           /* whether a sheet is printed */
    size_t bytes;        /* how many bytes are printed */
};

/* Each of these goes on behind what it has read, or returns 0. */

static int word(const char **at, const char *expected)
{
    size_t n = strlen(expected);
    if (strncmp(*at, expected, n) != 0)
        return 0;
    *at += n;
    return 1;
}

static int number(const char **at, size_t *value)
{
    char *end;
    if (**at < '1' || **at > '9')
        return 0;
    *value = strtoul(*at, &end, 10);
    *at = end;
    return *value < MOST;
}

static int name(const char **at, char *to, size_t room)
{
    size_t n = strspn(*at, "abcdefghijklmnopqrstuvwxyz0123456789_");
    if (n == 0 || n >= room)
        return 0;
    memcpy(to, *at, n);
    to[n] = '\0';
    *at += n;
    return 1;
}

/* A character, or an escape. */
static int character(const char **at, struct text *t)
{
    if (word(at, "\\n"))
        return put(t, '\n');
    if (word(at, "\\r"))
        return put(t, '\r');
    if (word(at, "\\0"))
        return put(t, '\0');
    return **at >= ' ' && **at <= '~' && **at != '\\' && put(t, *(*at)++);
}

/* "text", or "text"*times. */
static int piece(const char **at, struct text *t)
{
    size_t from = t->n, to, i, times = 1;
    if (!word(at, "\""))
        return 0;
    while (!word(at, "\""))
        if (!character(at, t))
            return 0;
    if (word(at, "*") && !number(at, &times))
        return 0;
    for (to = t->n; times > 1; times--)
        for (i = from; i < to; i++)
            if (!put(t, t->at[i]))
                return 0;
    return 1;
}

/* Pieces with a space between them. */
static int pieces(const char **at, struct text *t)
{
    t->n = 0;
    do {
        if (!piece(at, t))
            return 0;
    } while (strncmp(*at, " \"", 2) == 0 && word(at, " "));
    return 1;
}

/* A case, to the end of its line. */
static int test(const char *at, struct test *t)
{
    if (!name(&at, t->name, sizeof t->name) || !word(&at, ": ") || !pieces(&at, &t->read) || !word(&at, " -> ") ||
        !pieces(&at, &t->printed))
        return 0;
    t->bytes = t->printed.n;
    t->sheet = word(&at, " of ");
    if (t->sheet && !number(&at, &t->bytes))
        return 0;
    return *at == '\0';
}

/* How many cases there are. */
static int count(const char *at, size_t *value) { return number(&at, value) && word(&at, " cases") && *at == '\0'; }

/* ---- running the cases ---- */

/* Runs a program, and takes all that it prints; returns its exit status, or -1. */
static int run(const char *program, const char *from, const char *to, struct text *printed)
{
    char command[200];
    int status;
    snprintf(command, sizeof command, "%s < %s > %s 2>&1", program, from, to);
    fflush(stdout);
    status = system(command);
    read_text(to, printed);
    return WIFEXITED(status) ? WEXITSTATUS(status) : -1;
}

/* Whether a program prints so many bytes that begin so, and ends with status 0. */
static int prints(const char *name, const char *program, const char *from, const char *to, const struct text *beginning,
                  size_t bytes)
{
    static struct text got;
    int status = run(program, from, to, &got);
    if (status == 0 && got.n == bytes && begins(&got, beginning))
        return 1;
    printf("%s: %s failed\n", name, program);
    show("expected", 0, bytes, beginning);
    show("got", status, got.n, &got);
    return 0;
}

/* Tries a case; a sheet is then read. */
static void try(const struct test *t, const char *program)
{
    static const struct text accepted = {"Y\n", 2};
    cases++;
    write_text(INPUT, &t->read);
    if (!prints(t->name, program, INPUT, OUTPUT, &t->printed, t->bytes) ||
        (t->sheet && !prints(t->name, "bin/read-sheet", OUTPUT, VERDICT, &accepted, accepted.n)))
        failed++;
}

static void refuse(const char *file, size_t line, const char *what)
{
    printf("%s:%lu: %s\n", file, (unsigned long)line, what);
    exit(2);
}

/* Tries the cases of a file. Its last line must say how many there are, and so there is at least one. */
static void try_all(const char *file, const char *program)
{
    static char text[4000];
    static struct test t;
    size_t before = cases, line = 0, said = 0;
    FILE *f = fopen(file, "r");
    if (f == NULL)
        refuse(file, line, "it cannot be opened");
    while (fgets(text, sizeof text, f) != NULL) {
        line++;
        text[strcspn(text, "\n")] = '\0';
        if (text[0] == '\0' || text[0] == '#')
            continue;
        if (said != 0)
            refuse(file, line, "this follows the number of cases");
        if (test(text, &t))
            try(&t, program);
        else if (!count(text, &said))
            refuse(file, line, "this is neither a case nor the number of cases");
    }
    fclose(f);
    if (said == 0 || cases - before != said)
        refuse(file, line, "the number of cases is another one, or missing");
}

int main(void)
{
    try_all("tests/programs/sheets.txt", "bin/read-sheet");
    try_all("tests/programs/orders.txt", "bin/order");
    printf("programs: %lu cases, %lu failed\n", cases, failed);
    return failed != 0;
}
