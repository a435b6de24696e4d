/* rows TABLE COMMAND [WORD]...: asks the rows of a table of the program, which is started once for each, and compares its status,
   its output and its standard error with the answers there. platforms/portable/flat_rows.py in the repository of bcs says what
   the table has. The last line says how many rows passed and failed. Where some failed, or none passed, the status is 1. */
#define _GNU_SOURCE
#define _DARWIN_C_SOURCE
#include <fcntl.h>
#include <stdbool.h>
#include <stdint.h>
#include <stdio.h>
#include <stdlib.h>
#include <string.h>
#include <sys/types.h>
#include <sys/wait.h>
#include <unistd.h>

#define WORDS 64
#define BEFORE 7 /* words of a row before those of its command line */
#define INPUT "row.input"
#define OUTPUT "row.output"
#define ERROR "row.error"

struct bytes {
    char *at; /* with a 0 behind them */
    size_t length;
};

__attribute__((noreturn)) static void fail(const char *what, const char *word) {
    fprintf(stderr, "rows: %s: %.200s\n", what, word);
    exit(3);
}

static int digit(char sign) {
    const char *const digits = "0123456789abcdef";
    const char *const found = sign != 0 ? strchr(digits, sign) : NULL;
    if (found == NULL) {
        fail("the table is damaged", "no digit");
    }
    return (int)(found - digits);
}

/* The bytes of digits, which take the digits' place. */
static struct bytes bytes_of(char *word) {
    const size_t length = strlen(word) / 2;
    for (size_t place = 0; place < length; place++) {
        word[place] = (char)(digit(word[2 * place]) << 4 | digit(word[2 * place + 1]));
    }
    word[length] = 0;
    return (struct bytes){word, length};
}

/* How many words the line has. The first stays as it is. */
static size_t split(char *line, struct bytes words[WORDS]) {
    size_t count = 0;
    while (line != NULL) {
        char *const tab = strchr(line, '\t');
        if (count == WORDS) {
            fail("the table is damaged", "too many words");
        }
        if (tab != NULL) {
            *tab = 0;
        }
        words[count] = count == 0 ? (struct bytes){line, strlen(line)} : bytes_of(line);
        count++;
        line = tab != NULL ? tab + 1 : NULL;
    }
    return count;
}

static void write_file(const char *name, struct bytes data, const char *size) {
    FILE *const file = fopen(name, "wb");
    if (file == NULL || fwrite(data.at, 1, data.length, file) != data.length || fclose(file) != 0 ||
        (*size != 0 && truncate(name, (off_t)strtoll(size, NULL, 10)) != 0)) {
        fail("can't be written", name);
    }
}

/* A whole file, whose memory is the caller's. */
static struct bytes read_file(const char *name) {
    FILE *const file = fopen(name, "rb");
    struct bytes data = {malloc(1), 0};
    size_t got = 1;
    for (size_t room = 4096; file != NULL && got > 0; room *= 2) {
        char *const longer = realloc(data.at, room + 1);
        if (longer == NULL) {
            fail("out of memory", name);
        }
        data.at = longer;
        got = fread(data.at + data.length, 1, room - data.length, file);
        data.length += got;
    }
    if (file == NULL || ferror(file) || fclose(file) != 0) {
        fail("can't be read", name);
    }
    data.at[data.length] = 0;
    return data;
}

static void to(int descriptor, const char *name, int flags) {
    const int file = open(name, flags, 0600);
    if (file == -1 || dup2(file, descriptor) == -1) {
        fail("can't be opened", name);
    }
}

/* Starts the program, and answers its status, or -1 if a signal ended it. */
static int started(char **command, const char *input) {
    fflush(stdout);
    const pid_t child = fork();
    if (child == 0) {
        to(0, input, O_RDONLY);
        to(1, OUTPUT, O_WRONLY | O_CREAT | O_TRUNC);
        to(2, ERROR, O_WRONLY | O_CREAT | O_TRUNC);
        execvp(command[0], command);
        fail("can't be started", command[0]);
    }
    int status = 0;
    if (child == -1 || waitpid(child, &status, 0) != child) {
        fail("can't be started", command[0]);
    }
    return WIFEXITED(status) ? WEXITSTATUS(status) : -1;
}

/* Whether these are the bytes wanted, or where those end in .. have that prefix. */
static bool fits(struct bytes told, struct bytes wanted) {
    if (told.length == wanted.length && memcmp(told.at, wanted.at, told.length) == 0) {
        return true;
    }
    const bool is_prefix = wanted.length >= 2 && memcmp(wanted.at + wanted.length - 2, "..", 2) == 0;
    return is_prefix && told.length >= wanted.length - 2 && memcmp(told.at, wanted.at, wanted.length - 2) == 0;
}

static bool has(struct bytes told, struct bytes part) {
    return strstr(told.at, part.at) != NULL;
}

static bool is_answered(const char *kind, struct bytes out, struct bytes error, struct bytes wanted, struct bytes wanted_error) {
    if (strcmp(kind, "whole") == 0) {
        return fits(out, wanted) && fits(error, wanted_error);
    }
    return strcmp(kind, "out") == 0 ? error.length == 0 && has(out, wanted) : out.length == 0 && has(error, wanted_error);
}

/* The words of a row: row NAME KIND STATUS INPUT OUTPUT ERROR WORD.. */
static bool passes(const struct bytes *words, size_t count, char **before, size_t count_before) {
    char *command[2 * WORDS] = {0};
    const bool has_input = strcmp(words[4].at, "/") != 0;
    for (size_t place = 0; place < count_before; place++) {
        command[place] = before[place];
    }
    for (size_t place = BEFORE; place < count; place++) {
        command[count_before + place - BEFORE] = words[place].at;
    }
    if (has_input) {
        write_file(INPUT, words[4], "");
    }
    const int status = started(command, has_input ? INPUT : "/");
    const struct bytes out = read_file(OUTPUT), error = read_file(ERROR);
    const bool is_right = status == atoi(words[3].at) && is_answered(words[2].at, out, error, words[5], words[6]);
    if (!is_right) {
        printf("rows: FAILED: %s: the status is %d, the output '%.200s', and standard error has '%.200s'\n", words[1].at, status,
               out.at, error.at);
    }
    free(out.at);
    free(error.at);
    return is_right;
}

/* Asks all rows in the folder, and answers how many failed. */
static unsigned long ask(FILE *table, char **command, size_t count_of_command, unsigned long *passed) {
    unsigned long failed = 0;
    char *line = NULL;
    size_t room = 0;
    ssize_t length;
    while ((length = getline(&line, &room, table)) > 0) {
        struct bytes words[WORDS] = {{NULL, 0}};
        line[length - 1] = 0;
        const size_t count = split(line, words);
        if (strcmp(words[0].at, "file") == 0 && count == 4) {
            write_file(words[1].at, words[2], words[3].at);
        } else if (strcmp(words[0].at, "row") == 0 && count >= BEFORE) {
            const bool is_right = passes(words, count, command, count_of_command);
            *passed += is_right;
            failed += !is_right;
        } else {
            fail("the table is damaged", words[0].at);
        }
    }
    free(line);
    return failed;
}

int main(int count, char **words) {
    char folder[] = "/tmp/bcs_rows.XXXXXX", *command[WORDS], remove[100];
    unsigned long passed = 0;
    if (count < 3 || count > WORDS) {
        fail("usage", "rows TABLE COMMAND [WORD]...");
    }
    FILE *const table = fopen(words[1], "r");
    for (int word = 2; word < count; word++) {
        char *const file = realpath(words[word], NULL);
        command[word - 2] = file != NULL ? file : words[word];
    }
    if (table == NULL || mkdtemp(folder) == NULL || chdir(folder) != 0) {
        fail("can't be opened", words[1]);
    }
    const unsigned long failed = ask(table, command, (size_t)count - 2, &passed);
    snprintf(remove, sizeof remove, "rm -r %s", folder);
    printf("rows: %lu passed, %lu failed\n", passed, failed);
    return system(remove) == 0 && failed == 0 && passed > 0 ? 0 : 1;
}
