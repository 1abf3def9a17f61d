/* Reads a state file by mast_load and writes the machine by mast_save: renew FILE OUT. Prints both answers; OUT is not made if one is refused. */
#include <stdio.h>

#include "mastclover.h"

static uint8_t tables[MAST_TABLES_LENGTH]; /* all zeros: not started */
static uint8_t file[2 * MAST_STATE_MAXIMUM];

static int say(const char *what, mast_answer answer)
{
    printf("%s %u %u %u\n", what, (unsigned)answer.status, (unsigned)answer.value, (unsigned)answer.next);
    return answer.status == MAST_SUCCESSFUL;
}

int main(int count, char **words)
{
    mast_answer saved;
    size_t length;
    FILE *in = count == 3 ? fopen(words[1], "rb") : NULL, *out;
    if (in == NULL) {
        fprintf(stderr, "usage: renew FILE OUT\n");
        return 2;
    }
    length = fread(file, 1, sizeof file, in);
    fclose(in);
    if (!say("load", mast_load(tables, sizeof tables, file, length)))
        return 1;
    saved = mast_save(tables, sizeof tables, file, sizeof file);
    if (!say("save", saved))
        return 1;
    out = fopen(words[2], "wb");
    if (out == NULL || fwrite(file, 1, saved.value, out) != saved.value || fclose(out) != 0) {
        fprintf(stderr, "%s cannot be written\n", words[2]);
        return 2;
    }
    return 0;
}
