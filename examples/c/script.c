/* script WORDS FILE: what onfi_sim writes for a script where its command line has these words, and ends with its status. */
#include <onfi.h>

#include <stdio.h>
#include <stdlib.h>
#include <string.h>

static char *contents(const char *name, size_t *bytes)
{
    FILE *file = fopen(name, "rb");
    if (!file)
        return NULL;
    size_t room = 4096, used = 0;
    char *text = malloc(room);
    while (text) {
        used += fread(text + used, 1, room - used, file);
        if (used < room)
            break;
        char *more = realloc(text, room *= 2);
        if (!more)
            free(text);
        text = more;
    }
    fclose(file);
    *bytes = used;
    return text;
}

int main(int count, char **words)
{
    size_t bytes, wrote, size = 1024;
    char *script = count == 3 ? contents(words[2], &bytes) : NULL;
    char *room = malloc(size);
    if (!script || !room) {
        fprintf(stderr, "usage: script WORDS FILE, as script 'plan --by within' FILE\n");
        free(script);
        free(room);
        return 5;
    }
    uint32_t status = onfi_text(words[1], strlen(words[1]), script, bytes, room, size, &wrote);
    if (status == ONFI_NO_ROOM) {
        free(room);
        room = malloc(size = wrote);
        status = room ? onfi_text(words[1], strlen(words[1]), script, bytes, room, size, &wrote) : ONFI_MEMORY;
    }
    if (room && status != ONFI_BAD_WORDS)
        fwrite(room, 1, wrote, stdout);
    free(room);
    free(script);
    return (int)status;
}
