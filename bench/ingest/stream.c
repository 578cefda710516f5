/* Writes a stream of puts for bench/ingest.sh.
 *
 *   stream SHAPE SERIES POINTS >STREAM
 *
 * Each series gets a point a second, one series behind another. Its value is a number of 16 bits with a sign, so that all
 * points of a leaf but the first take 8 bytes of it at most. Where the shape is `decimal` it is a number of hundredths. */
#include <stdint.h>
#include <stdio.h>
#include <stdlib.h>
#include <string.h>

static const char *const shapes[] = {"canonical", "reordered", "array", "bulk", "decimal", "text-time"};

enum { CANONICAL, REORDERED, ARRAY, BULK, DECIMAL, TEXT_TIME, SHAPES };

static int next_value(void) {
    static uint32_t state = 1;
    state = 1664525 * state + 1013904223;
    return (int)(state >> 16) - 32768;
}

static void write_name(int shape, unsigned long host) {
    char name[64];
    const char *form = "cpu host=host-%04lu zone=z%lu";
    if (shape == ARRAY)
        form = "busy|load host=host-%04lu zone=z%lu";
    if (shape == REORDERED)
        snprintf(name, sizeof name, "cpu zone=z%lu host=host-%04lu", host % 4, host);
    else
        snprintf(name, sizeof name, form, host, host % 4);
    if (shape == BULK)
        printf("$%zu\r\n%s\r\n", strlen(name), name);
    else
        printf("+%s\r\n", name);
}

static void write_put(int shape, unsigned long host, unsigned long second) {
    write_name(shape, host);
    printf("%c%lu\r\n", shape == TEXT_TIME ? '+' : ':', 1700000000000000000 + 1000000000 * second);
    int value = next_value();
    if (shape == ARRAY)
        printf("*2\r\n:%d\r\n:%d\r\n", value, next_value());
    else if (shape == DECIMAL)
        printf("+%s%d.%02d\r\n", value < 0 ? "-" : "", abs(value) / 100, abs(value) % 100);
    else
        printf(":%d\r\n", value);
}

int main(int count, char **words) {
    int shape = 0;
    while (count == 4 && shape < SHAPES && strcmp(words[1], shapes[shape]) != 0)
        shape++;
    if (count != 4 || shape == SHAPES) {
        fputs("usage: stream SHAPE SERIES POINTS >STREAM\n", stderr);
        return 2;
    }
    unsigned long each = shape == ARRAY ? 2 : 1;
    unsigned long hosts = strtoul(words[2], NULL, 10) / each, puts = strtoul(words[3], NULL, 10) / each;
    for (unsigned long i = 0; i < puts; i++)
        write_put(shape, i % hosts, i / hosts);
    return fflush(stdout) != 0;
}
