/* Plays a script on the card by a call, without a pipe.

     embedded [ROOM] < SCRIPT > ANSWERS

   With ROOM, one call with that much room for the answers; else as much room as all answers take. Says on standard error
   how many characters of the script were answered. */
#include "amberdrone.h"

#include <stdio.h>
#include <stdlib.h>

/* Standard input to its end; NULL where that fails. */
static uint8_t *whole_input(size_t *length)
{
    size_t room = 4096, got;
    uint8_t *text = malloc(room);
    *length = 0;
    while (text && (got = fread(text + *length, 1, room - *length, stdin)) > 0) {
        *length += got;
        if (*length == room) {
            uint8_t *longer = realloc(text, room *= 2);
            if (!longer)
                free(text);
            text = longer;
        }
    }
    if (text && ferror(stdin)) {
        free(text);
        text = NULL;
    }
    return text;
}

/* The characters of a script up to its last LF: those that the card answers. */
static size_t in_whole_lines(const uint8_t *script, size_t length)
{
    while (length > 0 && script[length - 1] != '\n')
        length--;
    return length;
}

/* One character more than asked for, so that room for none is no NULL either. */
static uint8_t *room_for(size_t characters)
{
    return characters < SIZE_MAX ? malloc(characters + 1) : NULL;
}

int main(int count, char **arguments)
{
    size_t length, read, written;
    uint8_t *script = whole_input(&length);
    size_t room = count > 1 ? strtoul(arguments[1], NULL, 10) : 4096;
    uint8_t *out = room_for(room);

    while (script && out) {
        written = amberdrone_bench(script, length, out, room, &read);
        if (count > 1 || read == in_whole_lines(script, length)) {
            fwrite(out, 1, written, stdout);
            fprintf(stderr, "%zu of %zu characters answered\n", read, length);
            return fflush(stdout) == 0 ? 0 : 1;
        }
        free(out);
        out = room_for(room *= 2);
    }
    fprintf(stderr, "embedded: the script cannot be read, or there is no memory for it\n");
    return 1;
}
