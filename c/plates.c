// Opens an archive of plates over the static library: checks its three lists deeply, and prints each plate with its cast and the parts
// cut from it.
//
//     plates FILE
//
// Where anything is refused, standard error says why, nothing is printed, and the exit status is 1.
#include "gachullpi.h"

#include <inttypes.h>
#include <stdio.h>
#include <stdlib.h>
#include <string.h>

// The heads of a text and of a slice: a count or a length, and a distance.
enum { HEAD = 8 };

struct archive {
    const char *path;
    uint8_t *bytes;
    size_t length;
};

// One of the three lists: what it is called, the kind of its pointer, and where that stands.
struct list {
    const char *name;
    const char *kind;
    size_t place;
};

static const struct list numbers = {"the list of plate numbers", "pst", 0};
static const struct list casts = {"the list of casts", "pst", 4};
static const struct list parts = {"the list of parts", "psst", 8};

// Items side by side, as one step from a slice finds them.
struct items {
    size_t place;
    uint64_t count;
};

static const char *words(uint64_t refusal) {
    switch (refusal) {
    case 1:
        return "more bytes than the limit of 2,147,483,647";
    case 21:
        return "a value that does not lie within the archive";
    case 22:
        return "a value at a place that is no multiple of its alignment";
    case 23:
        return "bytes in the archive that are not UTF-8 text";
    case GACHULLPI_NO_KIND:
        return "no such kind in the catalogue";
    default:
        return "refused";
    }
}

// Ends the program where a call was refused.
static void require(const struct archive *archive, const char *what, struct gachullpi_answer answer) {
    if (answer.refusal == 0) {
        return;
    }
    fprintf(stderr, "plates: %s: %s: %s (refusal %" PRIu64 ", place %" PRIu64 ", depth %" PRIu64 ")\n", archive->path, what,
            words(answer.refusal), answer.refusal, answer.place, answer.depth);
    exit(1);
}

static void check(const struct archive *archive, struct list list) {
    require(archive, list.name,
            gachullpi_is_valid_deep((const uint8_t *)list.kind, strlen(list.kind), 'l', archive->bytes, archive->length, list.place));
}

// One step from the value of a kind at a place.
static struct gachullpi_answer step(const struct archive *archive, const char *what, const char *kind, size_t place) {
    struct gachullpi_answer answer =
        gachullpi_get((const uint8_t *)kind, strlen(kind), 'l', archive->bytes, archive->length, place);
    require(archive, what, answer);
    return answer;
}

// The items of the slice of a kind at a place.
static struct items items_at(const struct archive *archive, const char *what, const char *kind, size_t place) {
    struct gachullpi_answer found = step(archive, what, kind, place);
    return (struct items){found.value, found.count};
}

// The items of a list: its pointer leads to a slice, whose kind is the pointer's without the p.
static struct items items_of(const struct archive *archive, struct list list) {
    struct gachullpi_answer target = step(archive, list.name, list.kind, list.place);
    return items_at(archive, list.name, list.kind + 1, target.value);
}

static size_t head_of(struct items items, uint64_t index) {
    return items.place + HEAD * index;
}

static void print_text(const struct archive *archive, size_t place) {
    struct gachullpi_answer text = step(archive, "a text", "t", place);
    fwrite(archive->bytes + text.value, 1, text.count, stdout);
}

static void print_parts(const struct archive *archive, size_t place) {
    struct items cut = items_at(archive, "the parts of a plate", "st", place);
    if (cut.count == 0) {
        printf("  nothing cut yet");
    }
    for (uint64_t i = 0; i < cut.count; i++) {
        printf(i == 0 ? "  cut: " : ", ");
        print_text(archive, head_of(cut, i));
    }
}

static void print_plates(const struct archive *archive) {
    struct items number = items_of(archive, numbers);
    struct items cast = items_of(archive, casts);
    struct items cut = items_of(archive, parts);
    if (cast.count != number.count || cut.count != number.count) {
        fprintf(stderr, "plates: %s: %" PRIu64 " plate numbers, %" PRIu64 " casts and %" PRIu64 " lists of parts\n", archive->path,
                number.count, cast.count, cut.count);
        exit(1);
    }
    for (uint64_t i = 0; i < number.count; i++) {
        printf("%5" PRIu64 "  ", i);
        print_text(archive, head_of(number, i));
        printf("  cast ");
        print_text(archive, head_of(cast, i));
        print_parts(archive, head_of(cut, i));
        putchar('\n');
    }
}

static void failed(const char *path, const char *what) {
    fprintf(stderr, "plates: %s: %s\n", path, what);
    exit(1);
}

// All of a file.
static struct archive opened(const char *path) {
    FILE *file = fopen(path, "rb");
    if (file == NULL) {
        failed(path, "cannot be opened");
    }
    struct archive archive = {path, NULL, 0};
    size_t room = 0;
    do {
        room = room == 0 ? 4096 : 2 * room;
        archive.bytes = realloc(archive.bytes, room);
        if (archive.bytes == NULL) {
            failed(path, "out of memory");
        }
        archive.length += fread(archive.bytes + archive.length, 1, room - archive.length, file);
    } while (archive.length == room);
    if (ferror(file)) {
        failed(path, "cannot be read");
    }
    fclose(file);
    return archive;
}

int main(int count, char **words_given) {
    if (count != 2) {
        fprintf(stderr, "usage: plates FILE\n");
        return 1;
    }
    struct archive archive = opened(words_given[1]);
    check(&archive, numbers);
    check(&archive, casts);
    check(&archive, parts);
    print_plates(&archive);
    free(archive.bytes);
    return fflush(stdout) == 0 ? 0 : 1;
}
