/*
 * ask COMMANDS TEXT CONFIG FILE DIRECTORY SPECIFIER: reads a book from its two files, asks one question of each kind about it, and says the
 * answers in sentences.
 */
#include <stdio.h>
#include <string.h>

#include "tsconfig_questions.h"

/* One byte more than a book may have, so that a longer file is refused by the questions. */
static uint8_t commands[32769], text[65536];
static size_t commands_len, text_len;

/* Answers that are longer are refused by 13. */
static uint8_t out[1 << 16];

static int read_file(const char *name, uint8_t *to, size_t room, size_t *len) {
    FILE *file = fopen(name, "rb");
    if (!file) {
        fprintf(stderr, "The file %s cannot be opened.\n", name);
        return 0;
    }
    *len = fread(to, 1, room, file);
    int failed = ferror(file);
    fclose(file);
    if (failed) fprintf(stderr, "The file %s cannot be read.\n", name);
    return !failed;
}

static const uint8_t *bytes(const char *word) { return (const uint8_t *)word; }

/* Says a refusal, if it is one. */
static int refused(const char *question, tsconfig_numbers answer) {
    if (!answer.number) return 0;
    printf("%s: refused by %llu, at place %llu.\n", question, (unsigned long long)answer.number, (unsigned long long)answer.place);
    return 1;
}

static void say_build(const char *config) {
    tsconfig_numbers built = tsconfig_build(commands, commands_len, text, text_len, bytes(config), strlen(config), out, sizeof out);
    if (refused("build", built)) return;
    printf("%s is record %llu (merges: %llu):\n", config, (unsigned long long)built.first, (unsigned long long)built.second);
    fwrite(out, 1, (size_t)built.bytes, stdout);
}

static void say_owner(const char *file) {
    tsconfig_numbers owner = tsconfig_owner(commands, commands_len, text, text_len, bytes(file), strlen(file));
    if (refused("owner", owner)) return;
    if (owner.first == TSCONFIG_NONE) {
        printf("No config owns %s.\n", file);
        return;
    }
    printf("%s is owned by record %llu, and its solution is record %llu.\n", file, (unsigned long long)owner.first, (unsigned long long)owner.second);
}

/* The paths in `out`, each with its length in two bytes before it. */
static void say_paths(uint64_t count) {
    const uint8_t *at = out;
    for (uint64_t i = 0; i < count; i++) {
        size_t len = at[0] + (size_t)at[1] * 256;
        printf("%llu. %.*s\n", (unsigned long long)i + 1, (int)len, (const char *)at + 2);
        at += 2 + len;
    }
}

static void say_candidates(const char *config, const char *specifier) {
    tsconfig_numbers found = tsconfig_candidates(commands, commands_len, text, text_len, bytes(config), strlen(config), bytes(specifier), strlen(specifier), out, sizeof out);
    if (refused("candidates", found)) return;
    printf("By %s, %s stands for (paths: %llu):\n", config, specifier, (unsigned long long)found.first);
    say_paths(found.first);
}

static void say_tries(const char *config, const char *directory, const char *specifier) {
    tsconfig_numbers tried = tsconfig_tries(commands, commands_len, text, text_len, bytes(config), strlen(config), bytes(directory), strlen(directory), bytes(specifier), strlen(specifier), out, sizeof out);
    if (refused("tries", tried)) return;
    printf("From %s, %s is looked for at (paths: %llu):\n", directory, specifier, (unsigned long long)tried.first);
    say_paths(tried.first);
}

int main(int argc, char **argv) {
    if (argc != 7) {
        fprintf(stderr, "ask COMMANDS TEXT CONFIG FILE DIRECTORY SPECIFIER: six words are needed.\n");
        return 1;
    }
    if (!read_file(argv[1], commands, sizeof commands, &commands_len)) return 1;
    if (!read_file(argv[2], text, sizeof text, &text_len)) return 1;
    say_build(argv[3]);
    say_owner(argv[4]);
    say_candidates(argv[3], argv[6]);
    say_tries(argv[3], argv[5], argv[6]);
    return 0;
}
