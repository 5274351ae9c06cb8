// Hands what libFuzzer draws to the two programs `bench` and `explain`, as words and files, in one process (measure/fuzz.sh builds it, and says
// what the targets are). The programs are the objects that the toolchain made, with their `main` under the names `bench_main` and
// `explain_main`, and with these functions in place of the C library's `open`, `read`, `write`, `close` and `_exit`: they open the files of a
// call by their names and nothing else, keep what is written, and go back to the call at its end. What is wrong ends the process by `abort`, with
// a line that says what came.
#include <errno.h>
#include <setjmp.h>
#include <stdbool.h>
#include <stdint.h>
#include <stdio.h>
#include <stdlib.h>
#include <string.h>

extern int bench_main(void), explain_main(void);

// ---- Files and words of a call.

enum { STUDY, REPORT, CNF, PROOF, FILES };
static const char *const names[FILES] = {"study", "report", "cnf", "proof"};

struct text {
    const uint8_t *bytes;
    size_t size;
};

static struct text files[FILES];
static size_t at[FILES];           // how much of each has been read since it was opened
static size_t piece = SIZE_MAX;    // no read gives more than this
static const char *const *words;   // behind the name of the program
static size_t word_count;
static char *answer;
static size_t answered, room;

enum { FIRST = 1000 }; // the descriptors of the files, in order, from here on

int given_open(const char *path, int flags, ...) {
    (void)flags;
    for (int file = 0; file < FILES; file++) {
        if (files[file].bytes && strcmp(path, names[file]) == 0) {
            at[file] = 0;
            return FIRST + file;
        }
    }
    errno = ENOENT;
    return -1;
}

int given_close(int file) {
    if (file < FIRST || file >= FIRST + FILES) abort();
    return 0;
}

ssize_t given_read(int file, void *into, size_t most) {
    if (file < FIRST || file >= FIRST + FILES) abort();
    file -= FIRST;
    size_t count = files[file].size - at[file];
    if (count > most) count = most;
    if (count > piece) count = piece;
    memcpy(into, files[file].bytes + at[file], count);
    at[file] += count;
    return (ssize_t)count;
}

ssize_t given_write(int file, const void *from, size_t count) {
    if (file != 1) {
        fprintf(stderr, "fuzz: written to %d: %.*s\n", file, (int)count, (const char *)from);
        abort();
    }
    if (answered + count + 1 > room) {
        room = 2 * (answered + count + 1);
        answer = realloc(answer, room);
        if (!answer) abort();
    }
    memcpy(answer + answered, from, count);
    answered += count;
    answer[answered] = 0;
    return (ssize_t)count;
}

// The words as the toolchain's C code gives them, by place: the length of one, -1 where there is none, -2 where it has no room.
int64_t rattle_arg_count(void) { return (int64_t)word_count + 1; }

int64_t rattle_arg(uint64_t place, uint8_t *into, uint64_t most) {
    if (place > word_count) return -1;
    const char *word = place == 0 ? "program" : words[place - 1];
    size_t size = strlen(word);
    memcpy(into, word, size < most ? size : most);
    return size > most ? -2 : (int64_t)size;
}

// ---- Calls.

struct told {
    int status;
    char *text;
    size_t size;
};

static void fail(const struct told *told, const char *why) {
    fprintf(stderr, "fuzz: %s; status %d, %zu bytes: %.2000s\nfuzz: words:", why, told->status, told->size, told->text);
    for (size_t k = 0; k < word_count; k++) fprintf(stderr, " %s", words[k]);
    fprintf(stderr, "\n");
    abort();
}

static bool is_same(const struct told *one, const struct told *other) {
    return one->status == other->status && one->size == other->size && memcmp(one->text, other->text, one->size) == 0;
}

static bool begins(const struct told *told, const char *front) { return strncmp(told->text, front, strlen(front)) == 0; }

// A program ends by `_exit`, once all that it has made is let go of.
static jmp_buf end;
static int ended;

void given_exit(int status) {
    ended = status;
    longjmp(end, 1);
}

static struct told once(bool explains, size_t most) {
    piece = most;
    answered = 0;
    given_write(1, "", 0);
    if (setjmp(end) == 0) {
        if (explains) explain_main();
        else bench_main();
        abort();
    }
    struct told told = {ended, malloc(answered + 1), answered};
    if (!told.text) abort();
    memcpy(told.text, answer, answered + 1);
    return told;
}

// The answer to some words, of files that come whole, and again in pieces of a few bytes: the same.
static struct told ask(bool explains, const char *const *given, size_t count) {
    static size_t turn;
    words = given;
    word_count = count;
    struct told told = once(explains, SIZE_MAX);
    struct told pieces = once(explains, 1 + turn++ % 7);
    if (!is_same(&told, &pieces)) {
        fail(&told, "the file whole");
        fail(&pieces, "another answer of the same files in pieces");
    }
    free(pieces.text);
    if (told.status < 0 || told.status > 5) fail(&told, "no status of the table");
    if (told.status == 5 ? told.size != 0 : told.size == 0 || told.text[told.size - 1] != '\n') fail(&told, "no text of lines");
    return told;
}

#define ASK(explains, ...) ask(explains, (const char *const[]){__VA_ARGS__}, sizeof((const char *const[]){__VA_ARGS__}) / sizeof(char *))

static void want(bool right, const struct told *told, const char *why) {
    if (!right) fail(told, why);
}

// ---- Targets.

enum { MOST_STUDIES = 64 };
static struct text studies[MOST_STUDIES]; // those over which reports and proofs are read
static size_t study_count;
static char usage[2][1024];

// The name of the first axiom of a study, as far as that is seen without reading it.
static const char *first_axiom(const uint8_t *bytes, size_t size) {
    static char name[33];
    const char *list = memmem(bytes, size, "axioms", 6), *end = (const char *)bytes + size;
    const char *from = list ? memchr(list, '"', (size_t)(end - list)) : NULL;
    size_t count = 0;
    for (const char *c = from ? from + 1 : end; c < end && *c && *c != '"' && count < 32; c++) name[count++] = *c;
    name[count] = 0;
    return name;
}

// A study: `check` takes or refuses it, and `explain study` refuses the same ones by the same line, with help behind it.
static void try_study(const uint8_t *bytes, size_t size) {
    files[STUDY] = (struct text){bytes, size};
    files[REPORT] = (struct text){(const uint8_t *)"", 0};
    struct told told = ASK(false, "check", "study", "report");
    if (told.status == 3) {
        struct told help = ASK(true, "study", "study");
        want(help.status == 3 && begins(&help, told.text), &help, "not refused by the line of check");
        for (const char *line = help.text + told.size; *line; line = strchr(line, '\n') + 1)
            want(strncmp(line, "help ", 5) == 0, &help, "a line that is no help");
        free(help.text);
    } else {
        want(told.status == 1 && strcmp(told.text, "refused line 1: form\n") == 0, &told, "an empty report");
        struct told body = ASK(true, "instance", "study", first_axiom(bytes, size), "0");
        want(body.status == 0 ? begins(&body, "axiom ") : body.status == 3 && begins(&body, "instance: "), &body, "no instance");
        free(body.text);
    }
    free(told.text);
}

// A report or a sharp text, of the study that the first byte names: `story` writes a page exactly where `check` confirms.
static void try_report(const uint8_t *bytes, size_t size) {
    if (size == 0 || study_count == 0) return;
    files[STUDY] = studies[bytes[0] % study_count];
    files[REPORT] = (struct text){bytes + 1, size - 1};
    struct told told = ASK(false, "check", "study", "report");
    struct told page = ASK(true, "story", "study", "report");
    want(told.status == 0 ? begins(&told, "confirmed ") : told.status == 1 && begins(&told, "refused line "), &told, "no answer of check");
    want(told.status == 0 ? page.status == 0 && begins(&page, "<!") : is_same(&told, &page), &page, "not as check");
    struct told gain = ASK(false, "gain", "study", "report");
    want(gain.status == 3 || gain.status == told.status || (gain.status == 1 && begins(&told, "confirmed sharp")), &gain, "not as check");
    free(told.text), free(page.text), free(gain.text);
}

// Clauses, and behind a byte 0 a proof.
static void try_lrat(const uint8_t *bytes, size_t size) {
    const uint8_t *middle = size ? memchr(bytes, 0, size) : NULL;
    size_t front = middle ? (size_t)(middle - bytes) : size;
    files[CNF] = (struct text){bytes, front};
    files[PROOF] = (struct text){middle ? middle + 1 : bytes, middle ? size - front - 1 : 0};
    struct told told = ASK(false, "lrat", "cnf", "proof");
    want(told.status == 0 ? strcmp(told.text, "confirmed\n") == 0 : told.status == 1 ? begins(&told, "proof") : begins(&told, "cnf: "), &told,
         "no answer of lrat");
    free(told.text);
}

// A proof over the clauses of the study that the first byte names: what is adopted of it `check` confirms.
static void try_adopt(const uint8_t *bytes, size_t size) {
    if (size == 0 || study_count == 0) return;
    files[STUDY] = studies[bytes[0] % study_count];
    files[PROOF] = (struct text){bytes + 1, size - 1};
    struct told told = ASK(false, "adopt", "study", "proof");
    want(told.status == 0 || (told.status == 1 && begins(&told, "proof")), &told, "no answer of adopt");
    if (told.status == 0) {
        files[REPORT] = (struct text){(const uint8_t *)told.text, told.size};
        struct told said = ASK(false, "check", "study", "report");
        want(said.status == 0 && strcmp(said.text, "confirmed impossible\n") == 0, &said, "an adopted report is not confirmed");
        free(said.text);
    }
    free(told.text);
}

// Words, each with a byte 0 behind it, of which the first names the program. The files that they may name are held.
static void try_words(const uint8_t *bytes, size_t size) {
    static const char *given[300];
    size_t count = 0;
    char *text = malloc(size + 1);
    if (!text) abort();
    memcpy(text, bytes, size);
    text[size] = 0;
    for (char *from = text; from < text + size && count < 300; from += strlen(from) + 1) given[count++] = from;
    if (count > 0) {
        bool explains = strcmp(given[0], "explain") == 0;
        struct told told = ask(explains, given + 1, count - 1);
        want((told.status == 2) == (strcmp(told.text, usage[explains]) == 0), &told, "status 2 goes with the line of usage");
        free(told.text);
    }
    free(text);
}

// ---- The fuzzer.

static void (*target)(const uint8_t *, size_t);

static struct text held(const char *folder, const char *name) {
    char path[4096];
    snprintf(path, sizeof path, "%s/%s", folder, name);
    FILE *file = fopen(path, "rb");
    if (!file) return (struct text){NULL, 0};
    uint8_t *bytes = malloc(1 << 20);
    if (!bytes) abort();
    struct text text = {bytes, fread(bytes, 1, 1 << 20, file)};
    fclose(file);
    return text;
}

// FUZZ_TARGET names the target, and FUZZ_HELD the folder with the files that it holds: `study` and the others, and studies by number.
int LLVMFuzzerInitialize(int *count, char ***given) {
    (void)count, (void)given;
    const char *name = getenv("FUZZ_TARGET"), *folder = getenv("FUZZ_HELD");
    if (!name || !folder) abort();
    target = !strcmp(name, "study") ? try_study : !strcmp(name, "report") ? try_report : !strcmp(name, "lrat") ? try_lrat
           : !strcmp(name, "adopt") ? try_adopt : !strcmp(name, "words") ? try_words : NULL;
    if (!target) abort();
    for (int explains = 0; explains < 2; explains++) {
        struct told told = ask(explains, NULL, 0);
        want(told.status == 2 && told.size < sizeof usage[0], &told, "no line of usage");
        strcpy(usage[explains], told.text);
        free(told.text);
    }
    for (int file = 0; file < FILES && target == try_words; file++) files[file] = held(folder, names[file]);
    for (; study_count < MOST_STUDIES; study_count++) {
        char number[8];
        snprintf(number, sizeof number, "%zu", study_count);
        studies[study_count] = held(folder, number);
        if (!studies[study_count].bytes) break;
    }
    return 0;
}

int LLVMFuzzerTestOneInput(const uint8_t *bytes, size_t size) {
    target(bytes, size);
    return 0;
}
