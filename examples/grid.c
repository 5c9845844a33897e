/* Maps of a capture: the zones' shares at five levels, as float grids that map programs read. The text below says how it
 * is used. Build it as the top of nx584.h says for host.c. */
#include "nx584.h"

#include <errno.h>
#include <stdio.h>
#include <string.h>

static const char usage[] =
    "usage: grid [--ascii] NAME <CAPTURE\n"
    "Reads a capture, as nxread does but to its end, and writes ten files: NAME-16.hdr and NAME-16.flt with a cell\n"
    "for each of the 256 zones, and the levels 8, 4, 2 and 1 cells wide in the same way.\n"
    "  --ascii  the capture is ASCII; else binary\n"
    "A cell is the share of its block's heard zones that are faulted, 0 to 1, and -9999 where none was heard.\n"
    "A level that cannot be written whole is told and has no .hdr afterwards, so that no program opens it.\n"
    "Status: 0 all are written, 1 the capture or a file failed, 2 wrong use.\n";

enum { FILE_NAME = 4096 }; /* more than a file's name may have */

struct map {
    const char *name;
    uint8_t framing;
    uint8_t table[NX584_TABLE_BYTES];
};

/* ---- the capture */

static nx584_reader hear(struct map *m, nx584_reader reader, const uint8_t *bytes, size_t count) {
    for (size_t at = 0; at < count;) {
        nx584_hearing h = nx584_hear(reader, m->table, sizeof m->table, bytes + at, count - at);
        reader = h.reader;
        at += h.used; /* what is unused is handed in again */
    }
    return reader;
}

/* With the old rule of escapes: a capture is looked at and not answered. */
static int hear_capture(struct map *m) {
    uint8_t bytes[4096];
    nx584_reader reader = nx584_fresh_lenient(m->framing);
    for (size_t n; (n = fread(bytes, 1, sizeof bytes, stdin)) > 0;)
        reader = hear(m, reader, bytes, n);
    if (!ferror(stdin))
        return 0;
    fprintf(stderr, "grid: cannot read the capture: %s\n", strerror(errno));
    return -1;
}

/* A map of nothing is one, but rarely what was wanted. */
static void say_if_unheard(const struct map *m) {
    if (!nx584_view(m->table, sizeof m->table).site.known)
        fprintf(stderr, "grid: no zone was heard%s\n",
                m->framing == NX584_ASCII ? "" : "; a capture of a gateway that speaks ASCII needs --ascii");
}

/* ---- the files */

static int fail(const char *what, const char *file) {
    fprintf(stderr, "grid: cannot %s %s: %s\n", what, file, strerror(errno));
    return -1;
}

static int name_file(char *file, const struct map *m, int width, const char *end) {
    int length = snprintf(file, FILE_NAME, "%s-%d.%s", m->name, width, end);
    if (length >= 0 && length < FILE_NAME)
        return 0;
    fprintf(stderr, "grid: the name is too long\n");
    return -1;
}

static int remove_file(const char *file) {
    return remove(file) == 0 || errno == ENOENT ? 0 : fail("remove", file);
}

/* What a disk has no room for may be told only when the file is closed. */
static int write_file(const char *file, const uint8_t *bytes, size_t count) {
    FILE *out = fopen(file, "wb");
    if (!out)
        return fail("write", file);
    int is_written = fwrite(bytes, 1, count, out) == count;
    int why = errno;
    if (fclose(out) == 0 && is_written)
        return 0;
    if (!is_written)
        errno = why;
    return fail("write", file);
}

/* A header stands only beside cells that are whole: an old one goes first, and the new one comes last. */
static int write_level(const struct map *m, uint8_t width) {
    char header_file[FILE_NAME], cells_file[FILE_NAME];
    uint8_t header[NX584_GRID_HEADER_MOST], cells[NX584_GRID_CELLS_MOST];
    nx584_gridded g = nx584_grid(m->table, sizeof m->table, width, header, sizeof header, cells, sizeof cells);
    if (g.number != 0) {
        fprintf(stderr, "grid: the level %d cells wide was refused: %d\n", width, g.number);
        return -1;
    }
    if (name_file(header_file, m, width, "hdr") != 0 || name_file(cells_file, m, width, "flt") != 0)
        return -1;
    if (remove_file(header_file) != 0 || write_file(cells_file, cells, g.cells) != 0)
        return -1;
    if (write_file(header_file, header, g.header) == 0)
        return 0;
    remove_file(header_file);
    return -1;
}

/* All five are tried, so that none is left from an earlier capture where another one fails. */
static int write_levels(const struct map *m) {
    static const uint8_t widths[] = {16, 8, 4, 2, 1};
    int status = 0;
    for (size_t k = 0; k < sizeof widths / sizeof *widths; k++)
        if (write_level(m, widths[k]) != 0)
            status = 1;
    return status;
}

/* ---- the words */

static int take_words(struct map *m, char **words) {
    if (*words && strcmp(*words, "--ascii") == 0) {
        m->framing = NX584_ASCII;
        words++;
    }
    m->name = *words;
    return *words && **words != '-' && **words != '\0' && !words[1] ? 0 : -1;
}

int main(int argc, char **argv) {
    static struct map m; /* a table of zeros is fresh */
    if (argc == 2 && strcmp(argv[1], "--help") == 0)
        return fputs(usage, stdout) < 0 || fflush(stdout) != 0;
    if (argc == 0 || take_words(&m, argv + 1) != 0) {
        fputs(usage, stderr);
        return 2;
    }
    if (nx584_version() != NX584_VERSION) {
        fprintf(stderr, "grid: made for version %d of the library, linked with %u\n", NX584_VERSION, nx584_version());
        return 1;
    }
    if (hear_capture(&m) != 0)
        return 1;
    say_if_unheard(&m);
    return write_levels(&m);
}
