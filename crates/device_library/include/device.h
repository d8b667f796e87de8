/* The device of Foldgneiss in your own process: libfoldgneiss_device.so, which tools/make-page makes.
 *
 * A call is what the program `foldgneiss` does of one command line, over files in memory. It reads
 * and writes nothing but what it is passed, and calls malloc, realloc and free. Calls share nothing:
 * several threads may make them at once. examples/library has a caller in C and one in Python.
 */
#ifndef FOLDGNEISS_DEVICE_H
#define FOLDGNEISS_DEVICE_H

#include <stddef.h>
#include <stdint.h>

#ifdef __cplusplus
extern "C" {
#endif

/* Runs a command and gives its exit code, as README.md has them (0 to 13).
 *
 * words      the command line without the program's name, in UTF-8, one word a line, as
 *            "play\nimage\nscript\nkey\n5000"; a last line end may be left out. The files have the
 *            names `image`, `script`, `key` and `other` in it, and any command may have any of them
 *            in any place: "round\nimage\nscript\nkey\nother\n5000" takes its policy from `other`.
 * image, script, key, other
 *            what is in the files of these names
 * piece      where the text goes
 * count      how much of it there is:
 *              code 0 or 1     the first *count bytes of piece are the text
 *              code 5          the text has *count bytes, more than piece, which is full of its first
 *                              ones: call again with a piece of *count bytes
 *              any other code  the first *count bytes of piece are the line that the program has on
 *                              standard error, as far as piece has room for it
 *
 * Code 2 is also for words that are no UTF-8. Code 6, no memory, can come of any call, with nothing
 * in piece that counts; meanwhile the library holds a copy of each file and the whole text.
 *
 * No pointer is null, even where its length is 0. piece and count overlap nothing else. Call it from
 * no signal handler, and from no forked child of a process with threads.
 */
uint8_t device_run(const uint8_t *words, size_t words_length,
                   const uint8_t *image, size_t image_length,
                   const uint8_t *script, size_t script_length,
                   const uint8_t *key, size_t key_length,
                   const uint8_t *other, size_t other_length,
                   uint8_t *piece, size_t piece_length, size_t *count);

#ifdef __cplusplus
}
#endif

#endif
