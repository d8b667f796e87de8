/* play IMAGE SCRIPT KEY STEPS: prints what `foldgneiss play` of these words prints, with the device
 * in this process. README.md says how it is compiled.
 */
#include <stdio.h>
#include <stdlib.h>

#include "device.h"

enum { REJECTED = 1, ABSENT = 3, TOO_LONG = 5, NO_MEMORY = 6 };

struct bytes {
    uint8_t *place;
    size_t length;
};

static void end_with(int code, const char *line) {
    fprintf(stderr, "%s\n", line);
    exit(code);
}

/* So many bytes, or one, so that the place is none that is null. */
static struct bytes new_bytes(size_t length) {
    struct bytes bytes = {malloc(length ? length : 1), length};
    if (!bytes.place)
        end_with(NO_MEMORY, "no memory");
    return bytes;
}

static struct bytes file_named(const char *name) {
    FILE *file = fopen(name, "rb");
    if (!file || fseek(file, 0, SEEK_END))
        end_with(ABSENT, "file is absent");
    struct bytes bytes = new_bytes((size_t)ftell(file));
    rewind(file);
    bytes.length = fread(bytes.place, 1, bytes.length, file);
    fclose(file);
    return bytes;
}

int main(int count_of_words, char **words) {
    if (count_of_words != 5)
        end_with(2, "usage: play IMAGE SCRIPT KEY STEPS");
    struct bytes image = file_named(words[1]), script = file_named(words[2]);
    struct bytes key = file_named(words[3]), none = new_bytes(0), line = new_bytes(256);
    line.length = (size_t)snprintf((char *)line.place, line.length, "play\nimage\nscript\nkey\n%.32s",
                                   words[4]);
    struct bytes piece = new_bytes(64); /* (most texts are longer: then the second call has room) */
    size_t count;
    uint8_t code;
    while ((code = device_run(line.place, line.length, image.place, image.length, script.place,
                              script.length, key.place, key.length, none.place, none.length,
                              piece.place, piece.length, &count)) == TOO_LONG) {
        free(piece.place);
        piece = new_bytes(count);
    }
    FILE *output = code <= REJECTED ? stdout : stderr;
    fwrite(piece.place, 1, count, output);
    if (output == stderr)
        fputc('\n', output);
    return fflush(output) ? TOO_LONG : code;
}
