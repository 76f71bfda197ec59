/* glTF 2.0 documents, checked and written anew. The calls are proved; docs/C.md says what of them,
 * how a program is linked, and what it owes them.
 *
 * All calls: a pointer may be NULL if its length is 0. `output` overlaps no other argument. A call
 * keeps no pointer and no memory after it returns. It needs 512 KiB of stack, which a new thread
 * of some systems doesn't have (docs/C.md, "Memory and threads"). */
#ifndef GLTF_C_H
#define GLTF_C_H

#include <stdbool.h>
#include <stddef.h>
#include <stdint.h>

#ifdef __cplusplus
extern "C" {
#endif

/* The version of this header. gltf_c_version puts out that of the library. */
#define GLTF_C_VERSION "1.4.1+1"

/* The statuses. Each call says which of them it returns. */
enum {
    GLTF_C_OK = 0,           /* no report, or written */
    GLTF_C_REPORTS = 1,      /* the document has reports, or the file has findings */
    GLTF_C_NOT_JSON = 2,     /* the bytes are no JSON */
    GLTF_C_NOT_GLTF = 3,     /* the JSON is no glTF document */
    GLTF_C_NO_MEMORY = 4,    /* memory was refused */
    GLTF_C_INVALID_ITEM = 5, /* a choice or the name of an attribute is invalid */
    GLTF_C_NOT_TEXT = 6,     /* the names of extensions, or of the file, are no UTF-8 */
    GLTF_C_NOT_GLB = 7       /* the bytes begin with "glTF" and are no .glb file */
};

/* What a call returns beside its output. The first bytes of the output are in the buffer, as many
 * as it has room for, and what lies behind them is as it was. No zero is added. */
typedef struct gltf_c_returned {
    uint8_t status;
    size_t needed; /* how many bytes the whole output has */
} gltf_c_returned;

/* Checks a document: JSON, or the bytes of a .glb file. The output is what `gltf_report` prints:
 * `clean` (status 0), a line for each report (1), or why the document was refused (2, 3, 4). For
 * broken .glb files it is `refused: not binary glTF` (7). Each line ends with a newline, the last
 * one too. */
gltf_c_returned gltf_c_check(const uint8_t *document, size_t document_len,
                             uint8_t *output, size_t output_len);

/* Checks a document by rules: the names of the extensions that it may require, one a line, and
 * whether a texture may be without an image. The status is also 6, without output. */
gltf_c_returned gltf_c_check_by(const uint8_t *document, size_t document_len,
                                const uint8_t *names, size_t names_len,
                                bool empty_texture,
                                uint8_t *output, size_t output_len);

/* Checks a document as gltf_c_check does. The output is the lines that `gltf_lint --reports --json`
 * prints (status 1): a JSON object a line, with the members `code`, `file`, `kind`, `message`, `path`
 * and `pointer`. `file` is the name that the lines give to the file, in UTF-8. Without output the
 * status is 0 (no report), 2, 3, 4, 6 or 7. */
gltf_c_returned gltf_c_check_json(const uint8_t *document, size_t document_len,
                                  const uint8_t *file, size_t file_len,
                                  uint8_t *output, size_t output_len);

/* Finds what the glTF 2.0 specification requires and a file doesn't have: JSON, or the bytes of a
 * .glb file. The output is a line for each finding (status 1), also with the statuses 2, 3 and 7:
 * a JSON object, with the members `code`, `file`, `kind`, `message`, `severity`, and `pointer` or
 * `offset`. `file` is as above. Without output the status is 0 (no finding), 2, 3, 4, 6 or 7. */
gltf_c_returned gltf_c_findings(const uint8_t *document, size_t document_len,
                                const uint8_t *file, size_t file_len,
                                uint8_t *output, size_t output_len);

/* Puts out the version of the library (status 0), without a newline at its end. */
gltf_c_returned gltf_c_version(uint8_t *output, size_t output_len);

/* Writes a document anew, in one line without a newline at its end (status 0). It takes JSON alone,
 * no .glb file. Without output the status is 2, 3, 4 or 5. Members that the format's table doesn't
 * have are left out: docs/C.md. */
gltf_c_returned gltf_c_rewrite(const uint8_t *document, size_t document_len,
                               uint8_t *output, size_t output_len);

#ifdef __cplusplus
}
#endif

#endif
