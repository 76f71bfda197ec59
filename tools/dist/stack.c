/* Whether each call of gltf_c passes in a thread with so many KiB of stack: stack KIB.
 *
 * The documents are those that nest deepest, in what a document keeps and in what it doesn't, and
 * one with a report in the deepest object that has rows. The calls run with ample and with no room.
 * The process ends by a signal if the stack is too small. tools/run_c.py runs this program. */
#include "gltf_c.h"

#include <pthread.h>
#include <stdio.h>
#include <stdlib.h>
#include <string.h>

#define LEVELS 126
#define ROOM 65536

static char documents[6][8192];
static uint8_t output[ROOM];

/* A document with a value that nests so many levels, between a front and a back. */
static void nest(char *text, const char *front, int levels, const char *open, const char *inner,
                 const char *close, const char *back)
{
    strcpy(text, front);
    for (int level = 0; level < levels; level++)
        strcat(text, open);
    strcat(text, inner);
    for (int level = 0; level < levels; level++)
        strcat(text, close);
    strcat(text, back);
}

static void make_documents(void)
{
    const char *asset = "{\"asset\":{\"version\":\"2.0\"},";
    char front[200];
    snprintf(front, sizeof front, "%s\"extras\":", asset);
    nest(documents[0], front, LEVELS, "[", "", "]", "}");
    nest(documents[1], front, LEVELS, "{\"a\":", "1", "}", "}");
    snprintf(front, sizeof front, "%s\"unknown\":", asset);
    nest(documents[2], front, LEVELS, "{\"a\":", "1", "}", "}");
    snprintf(front, sizeof front, "%s\"materials\":[{\"extensions\":{\"X\":", asset);
    nest(documents[3], front, LEVELS - 3, "{\"a\":", "1", "}", "}}]}");
    nest(documents[4], front, 200, "[", "", "]", "}}]}");
    snprintf(documents[5], sizeof documents[5],
             "%s\"materials\":[{\"pbrMetallicRoughness\":{\"baseColorTexture\":{\"index\":7,"
             "\"extensions\":{\"KHR_texture_transform\":{\"offset\":[1.5,2]}}}}}],"
             "\"extensionsRequired\":[\"A\"]}", asset);
}

static void *call_all(void *nothing)
{
    static const uint8_t names[] = "KHR_lights_punctual\nKHR_materials_unlit";
    for (int which = 0; which < 6; which++) {
        const uint8_t *text = (const uint8_t *)documents[which];
        size_t len = strlen(documents[which]);
        gltf_c_check(text, len, output, ROOM);
        gltf_c_check_by(text, len, names, sizeof names - 1, true, output, ROOM);
        gltf_c_check_json(text, len, names, sizeof names - 1, output, ROOM);
        gltf_c_findings(text, len, names, sizeof names - 1, output, ROOM);
        gltf_c_rewrite(text, len, output, ROOM);
        gltf_c_rewrite(text, len, NULL, 0);
    }
    gltf_c_version(output, ROOM);
    return nothing;
}

int main(int argc, char **argv)
{
    pthread_attr_t attributes;
    pthread_t thread;
    make_documents();
    if (argc != 2 || pthread_attr_init(&attributes) != 0
        || pthread_attr_setstacksize(&attributes, (size_t)atoi(argv[1]) * 1024) != 0
        || pthread_create(&thread, &attributes, call_all, NULL) != 0)
        return 7;
    return pthread_join(thread, NULL) == 0 ? 0 : 7;
}
