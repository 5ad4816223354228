/* judge PROFILE REC: the verdict of `a429 decide`, as the program prints it, with each file that crossed as hexadecimal digits after
 * its line. The status is the program's. An example of how liba429 is called; it is tested as C and as C++. */
#include "a429.h"
#include <stdio.h>
#include <stdlib.h>

typedef struct {
    uint8_t *bytes;
    size_t length;
} content;

/* the bytes of a file; a NULL where it cannot be read */
static content content_of(const char *path)
{
    content it = {NULL, 0};
    FILE *file = fopen(path, "rb");
    if (!file)
        return it;
    size_t room = 1 << 16;
    uint8_t *bytes = (uint8_t *)malloc(room);
    while (bytes) {
        it.length += fread(bytes + it.length, 1, room - it.length, file);
        if (it.length < room)
            break;
        uint8_t *more = (uint8_t *)realloc(bytes, room *= 2);
        if (!more)
            free(bytes);
        bytes = more;
    }
    fclose(file);
    it.bytes = bytes;
    return it;
}

static const char *name_of(uint32_t reason)
{
    switch (reason) {
    case A429_NO_FORM: return "NoForm";
    case A429_NOT_GRANTED: return "NotGranted";
    case A429_WRONG_ANSWER: return "WrongAnswer";
    case A429_BAD_BLOCK: return "BadBlock";
    case A429_WRONG_NUMBER: return "WrongNumber";
    case A429_OTHER_BLOCK: return "OtherBlock";
    case A429_NO_RUN: return "NoRun";
    case A429_NEVER_WHOLE: return "NeverWhole";
    case A429_NOT_ONE_BLOCK: return "NotOneBlock";
    case A429_NOT_REPLAYED: return "NotReplayed";
    case A429_OUT_OF_STEPS: return "OutOfSteps";
    default: return "?";
    }
}

static void print_files(const a429_file *files, const uint8_t *bytes, const a429_found *found)
{
    printf("YES files %zu\n", found->files);
    for (size_t k = 0; k < found->files; k++) {
        printf("file %u %zu\n", (unsigned)files[k].number, files[k].length);
        for (size_t i = 0; i < files[k].length; i++)
            printf("%02x", *bytes++);
        printf("\n");
    }
}

int main(int count, char **words)
{
    if (count != 3 || a429_abi() != A429_ABI)
        return 5;
    content profile = content_of(words[1]), recording = content_of(words[2]);
    if (!profile.bytes || !recording.bytes)
        return 4;
    /* once to learn how much there is, and once with room for it */
    a429_file no_file;
    uint8_t no_byte;
    a429_found found;
    uint8_t status = a429_decide(profile.bytes, profile.length, recording.bytes, recording.length, &no_file, 0, &no_byte, 0, &no_byte, 0,
                                 &found);
    a429_file *files = (a429_file *)malloc((found.files + 1) * sizeof *files);
    uint8_t *bytes = (uint8_t *)malloc(found.bytes + 1), *text = (uint8_t *)malloc(found.text + 1);
    if (!files || !bytes || !text)
        return 4;
    status = a429_decide(profile.bytes, profile.length, recording.bytes, recording.length, files, found.files, bytes, found.bytes, text,
                         found.text, &found);
    switch (status) {
    case A429_YES: print_files(files, bytes, &found); break;
    case A429_IMPOSSIBLE: printf("IMPOSSIBLE %zu %s\n", found.entry, name_of(found.reason)); break;
    case A429_UNEXPLAINED: printf("UNEXPLAINED %zu %s\n", found.entry, name_of(found.reason)); break;
    case A429_INPUT: fprintf(stderr, "%.*s\n", (int)found.text, (const char *)text); break;
    default: fprintf(stderr, "memory\n");
    }
    free(files);
    free(bytes);
    free(text);
    free(profile.bytes);
    free(recording.bytes);
    return status;
}
