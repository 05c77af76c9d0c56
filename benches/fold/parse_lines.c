/* Parses the key and the value of each line of a log by jansson, up to an empty line, and drops both. */
#define _GNU_SOURCE
#include <jansson.h>
#include <stdio.h>
#include <stdlib.h>
#include <string.h>

static int parse(const char *text, size_t length) {
    json_error_t error;
    json_t *value = json_loadb(text, length, JSON_DECODE_ANY, &error);
    if (value == NULL) {
        fprintf(stderr, "%s\n", error.text);
        return 0;
    }
    json_decref(value);
    return 1;
}

int main(void) {
    char *line = NULL;
    size_t room = 0;
    ssize_t length;
    unsigned long lines = 0;
    while ((length = getline(&line, &room, stdin)) > 1) {
        char *end = line + length - 1;
        char *key = memchr(line, '\t', length);
        char *value = key == NULL ? NULL : memchr(key + 1, '\t', end - key - 1);
        if (value == NULL || !parse(key + 1, value - key - 1) || !parse(value + 1, end - value - 1)) {
            return 1;
        }
        lines++;
    }
    free(line);
    printf("%lu\n", lines);
    return 0;
}
