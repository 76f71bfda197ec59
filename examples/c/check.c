/* Checks a glTF document, or writes it anew.
 *
 *   check FILE          prints what is wrong in a document
 *   check FILE NAMES    the same, if it may require the extensions NAMES alone, one a line
 *   check -j FILE       the same as JSON, an object a line
 *   check -f FILE       prints what the specification requires and the file doesn't have
 *   check -w FILE       writes the document anew
 *
 * The exit status is that of the call. tools/run_c.py builds and runs this program. */
#include "gltf_c.h"

#include <stdio.h>
#include <stdlib.h>
#include <string.h>

/* Room for most outputs. A longer one is asked for again, with as much room as it needs. */
#define ROOM 65536

/* The exit status if the arguments are wrong, or a file can't be read. */
#define FAILED 9

/* The call: check, or as the first argument says. */
typedef enum { CHECK, CHECK_JSON = 'j', FINDINGS = 'f', REWRITE = 'w' } Call;

typedef struct {
    Call call;
    uint8_t *document;
    size_t len;
    const char *file;
    const char *names; /* NULL for the standard rules */
} Request;

static gltf_c_returned ask(const Request *request, uint8_t *output, size_t room)
{
    const uint8_t *file = (const uint8_t *)request->file;
    size_t file_len = strlen(request->file);

    if (request->call == REWRITE)
        return gltf_c_rewrite(request->document, request->len, output, room);
    if (request->call == CHECK_JSON)
        return gltf_c_check_json(request->document, request->len, file, file_len, output, room);
    if (request->call == FINDINGS)
        return gltf_c_findings(request->document, request->len, file, file_len, output, room);
    if (request->names)
        return gltf_c_check_by(request->document, request->len, (const uint8_t *)request->names,
                               strlen(request->names), false, output, room);
    return gltf_c_check(request->document, request->len, output, room);
}

/* Reads a whole file. The result is not NULL if the file is empty. */
static uint8_t *read_file(const char *path, size_t *len)
{
    FILE *file = fopen(path, "rb");
    uint8_t *bytes = NULL;
    size_t room = 0;
    *len = 0;
    while (file && !ferror(file) && !feof(file)) {
        if (*len == room) {
            room = room ? 2 * room : 4096;
            uint8_t *longer = realloc(bytes, room);
            if (!longer)
                break;
            bytes = longer;
        }
        *len += fread(bytes + *len, 1, room - *len, file);
    }
    if (!file || !feof(file)) {
        fprintf(stderr, "%s can't be read\n", path);
        exit(FAILED);
    }
    fclose(file);
    return bytes;
}

/* The call that an argument asks for: CHECK if it is a file. */
static Call call_of(const char *argument)
{
    static const Call calls[] = { CHECK_JSON, FINDINGS, REWRITE };
    for (size_t k = 0; k < sizeof calls / sizeof *calls; k++)
        if (argument[0] == '-' && argument[1] == (char)calls[k] && argument[2] == 0)
            return calls[k];
    return CHECK;
}

int main(int argc, char **argv)
{
    if (argc < 2 || argc > 3) {
        fputs("check FILE, check FILE NAMES, or check with -j, -f or -w and FILE\n", stderr);
        return FAILED;
    }
    Request request = { .call = argc == 3 ? call_of(argv[1]) : CHECK };
    request.file = argv[request.call == CHECK ? 1 : 2];
    request.names = argc == 3 && request.call == CHECK ? argv[2] : NULL;
    request.document = read_file(request.file, &request.len);

    uint8_t first[ROOM];
    uint8_t *output = first;
    gltf_c_returned returned = ask(&request, first, ROOM);
    if (returned.needed > ROOM) {
        size_t room = returned.needed;
        output = malloc(room);
        if (!output)
            return GLTF_C_NO_MEMORY;
        returned = ask(&request, output, room);
    }
    fwrite(output, 1, returned.needed, stdout);
    if (output != first)
        free(output);
    free(request.document);
    return returned.status;
}
