/* The words of a run. */
#include "program.h"
#include <errno.h>
#include <getopt.h>
#include <stdlib.h>
#include <string.h>
#include <unistd.h>

enum { MOST_FRONT = 65536 };

/* Options that have no letter. */
enum word {
    ONE_SYSTEM = 256, EXCLUDE, FILES0, MIME, JSON, CSV, SUMMARY, LIES, WHY, BYTES, BUILT_IN, TYPES, SNIFF, NO_SNIFF, CONTENT_TYPE,
    FRONT, NAME, LIST, THREADS, COLOR, PROGRESS, HELP, VERSION
};

static const struct option words[] = {
    {"one-file-system", no_argument, NULL, ONE_SYSTEM}, {"exclude", required_argument, NULL, EXCLUDE},
    {"files0-from", required_argument, NULL, FILES0},   {"brief", no_argument, NULL, 'b'},
    {"recursive", no_argument, NULL, 'r'},              {"null", no_argument, NULL, '0'},
    {"mime", no_argument, NULL, MIME},                  {"json", no_argument, NULL, JSON},
    {"csv", no_argument, NULL, CSV},                    {"summary", no_argument, NULL, SUMMARY},
    {"lies", no_argument, NULL, LIES},                  {"why", optional_argument, NULL, WHY},
    {"bytes", no_argument, NULL, BYTES},                {"built-in", no_argument, NULL, BUILT_IN},
    {"types", required_argument, NULL, TYPES},          {"sniff", no_argument, NULL, SNIFF},
    {"nosniff", no_argument, NULL, NO_SNIFF},           {"content-type", required_argument, NULL, CONTENT_TYPE},
    {"front", required_argument, NULL, FRONT},          {"name", required_argument, NULL, NAME},
    {"list", no_argument, NULL, LIST},                  {"threads", required_argument, NULL, THREADS},
    {"color", optional_argument, NULL, COLOR},          {"progress", no_argument, NULL, PROGRESS},
    {"help", no_argument, NULL, HELP},                  {"version", no_argument, NULL, VERSION},
    {NULL, 0, NULL, 0},
};

/* Refuses the words. What is given is shown as a name is. */
static void refuse_with(const char *why, const char *word, const char *hint) {
    static struct text shown;
    put_shown(&shown, word, strlen(word));
    fprintf(stderr, "infer_label: %s%.*s%s\n", why, (int)shown.size, shown.bytes, hint);
    fputs("usage: infer_label [OPTION ..] [PATH ..], and infer_label -h says more\n", stderr);
    exit(FAILED);
}

static void refuse(const char *why, const char *word) { refuse_with(why, word, ""); }

void tell_file(const char *path, const char *why) {
    static struct text shown;
    shown.size = 0;
    put_shown(&shown, path, strlen(path));
    fprintf(stderr, "infer_label: %.*s%s\n", (int)shown.size, shown.bytes, why);
}

void refuse_file(const char *path, const char *why) {
    tell_file(path, why);
    exit(FAILED);
}

/* How many letters have to be changed, left out or added to make one word of the other, as far as these are short. */
static size_t distance(const char *left, const char *right) {
    enum { LONGEST = 32 };
    size_t row[LONGEST + 1], right_size = strlen(right);
    if (strlen(left) > LONGEST || right_size > LONGEST)
        return LONGEST;
    for (size_t j = 0; j <= right_size; j++)
        row[j] = j;
    for (size_t i = 0; left[i]; i++) {
        size_t corner = row[0]++;
        for (size_t j = 0; j < right_size; j++) {
            size_t changed = corner + (left[i] != right[j]), least = row[j] < row[j + 1] ? row[j] + 1 : row[j + 1] + 1;
            corner = row[j + 1];
            row[j + 1] = changed < least ? changed : least;
        }
    }
    return row[right_size];
}

/* Tells of a wrong word, with the nearest right one. Letters may stand together in a word. */
static void refuse_word(const char *word) {
    const char letter[] = {'-', (char)optopt, 0}, *name = word + strspn(word, "-");
    char given[64], hint[64];
    if (optopt != 0 && optopt < ONE_SYSTEM)
        refuse("no option ", letter);
    snprintf(given, sizeof given, "%.*s", (int)strcspn(name, "="), name);
    const struct option *best = words;
    for (const struct option *it = words; it->name; it++)
        best = distance(given, it->name) < distance(given, best->name) ? it : best;
    bool is_near = strlen(given) > 1 && distance(given, best->name) <= 1 + strlen(given) / 3;
    snprintf(hint, sizeof hint, "; did you mean --%s?", best->name);
    refuse_with("no option ", word, is_near ? hint : "");
}

static unsigned long number(const char *word, unsigned long least, unsigned long most, const char *why) {
    char *end;
    unsigned long value = strtoul(word, &end, 10);
    if (word[0] < '0' || word[0] > '9' || *end || value < least || value > most)
        refuse(why, word);
    return value;
}

/* A text of types is read up to this, as a device has no end. */
#define TYPES_MAX ((size_t)1 << 20)

/* Reads the text of one's own types, or tells why it describes none. */
static void read_types(struct options *options, const char *path) {
    FILE *file = fopen(path, "rb");
    size_t got = 1, line, column;
    char reason[INFER_TEXT_SIZE], why[INFER_TEXT_SIZE + 64];
    options->types.size = 0;
    while (file && got > 0 && options->types.size <= TYPES_MAX) {
        char *room = make_room(&options->types, 4096);
        got = fread(room, 1, 4096, file);
        options->types.size += got;
    }
    if (!file || ferror(file)) {
        snprintf(why, sizeof why, ": %s", strerror(errno));
        refuse_file(path, why);
    }
    fclose(file);
    if (options->types.size > TYPES_MAX)
        refuse_file(path, ": more than 1 MiB of types");
    if (infer_types_check(options->types.bytes, options->types.size, &line, &column, reason, sizeof reason)) {
        snprintf(why, sizeof why, ":%zu:%zu: %s", line, column, reason);
        refuse_file(path, why);
    }
    options->line.types = options->types.bytes;
    options->line.types_len = options->types.size;
}

static bool is_colored(const char *when) {
    const char *refused = getenv("NO_COLOR");
    if (!when || strcmp(when, "always") == 0)
        return true;
    if (strcmp(when, "auto") == 0)
        return isatty(STDOUT_FILENO) && !(refused && *refused);
    if (strcmp(when, "never") != 0)
        refuse("--color is auto, always or never: ", when);
    return false;
}

static void set_why(struct options *options, const char *how) {
    if (how && strcmp(how, "all") != 0)
        refuse("--why is alone, or --why=all: ", how);
    options->is_why = true;
    options->is_whole_why = how != NULL;
    options->line.flags |= INFER_LABEL_WHY;
}

static void set_content_type(struct options *options, const char *type) {
    options->line.content_type = type;
    options->line.content_type_len = strlen(type);
    if (options->line.look != INFER_LABEL_BROWSER_NO_SNIFF)
        options->line.look = INFER_LABEL_BROWSER;
}

static void set_form(struct options *options, enum infer_label_form form) { options->line.form = form; }
static void set_look(struct options *options, enum infer_label_look look) { options->line.look = look; }

/* What an option says of how a line is written. */
static bool take_form(struct options *options, int word) {
    switch (word) {
        case 'b': options->line.flags |= INFER_LABEL_NO_NAME; return true;
        case MIME: set_form(options, INFER_LABEL_MIME); return true;
        case JSON: set_form(options, INFER_LABEL_JSON); return true;
        case CSV: set_form(options, INFER_LABEL_CSV); return true;
        case WHY: set_why(options, optarg); return true;
        case SUMMARY: options->is_summary = true; return true;
        case LIES: options->is_lies = true; return true;
        case COLOR: options->is_colored = is_colored(optarg); return true;
        case PROGRESS: options->is_progress = true; return true;
        default: return false;
    }
}

/* What it says of which files there are. */
static bool take_input(struct options *options, int word) {
    switch (word) {
        case 'r': options->is_walk = true; return true;
        case '0': options->files0 = "-"; return true;
        case FILES0: options->files0 = optarg; return true;
        case ONE_SYSTEM: options->is_one_system = true; return true;
        case EXCLUDE: options->excluded[options->excluded_count++] = optarg; return true;
        case NAME: options->input_name = optarg; return true;
        case THREADS: options->threads = (unsigned)number(optarg, 1, MOST_THREADS, "--threads must be 1 to 64: "); return true;
        default: return false;
    }
}

/* What it says of what a file is told by. */
static bool take_look(struct options *options, int word) {
    switch (word) {
        case BYTES: set_look(options, INFER_LABEL_BYTES); return true;
        case BUILT_IN: set_look(options, INFER_LABEL_BUILT_IN); return true;
        case SNIFF: set_look(options, INFER_LABEL_BROWSER); return true;
        case NO_SNIFF: set_look(options, INFER_LABEL_BROWSER_NO_SNIFF); return true;
        case CONTENT_TYPE: set_content_type(options, optarg); return true;
        case TYPES: read_types(options, optarg); return true;
        case FRONT: options->front = number(optarg, 1, MOST_FRONT, "--front must be 1 to 65536: "); return true;
        default: return false;
    }
}

static void tell(const char *text) {
    fputs(text, stdout);
    exit(end_output() ? ALL_KNOWN : FAILED);
}

static void take_word(struct options *options, int word, char **argv) {
    if (word == 'h')
        tell(short_help);
    if (word == HELP)
        tell(long_help);
    if (word == VERSION)
        tell("infer_label " INFER_VERSION "\n");
    if (word == LIST)
        options->is_list = true;
    else if (word == ':')
        refuse("no value after ", argv[optind - 1]);
    else if (!take_form(options, word) && !take_input(options, word) && !take_look(options, word))
        refuse_word(argv[optind - 1]);
}

/* Refuses options that do not go together. */
static void check(const struct options *options, bool has_paths) {
    bool is_browser = options->line.look == INFER_LABEL_BROWSER || options->line.look == INFER_LABEL_BROWSER_NO_SNIFF;
    if (options->is_why && (is_browser || options->types.bytes))
        refuse("--why goes with none of --sniff, --nosniff, --content-type and --types", "");
    if (options->is_lies && options->line.look != INFER_LABEL_NAME_AND_BYTES)
        refuse("--lies goes with none of --bytes, --built-in, --sniff, --nosniff and --content-type", "");
    if (options->is_summary && options->line.form != INFER_LABEL_TEXT && options->line.form != INFER_LABEL_JSON)
        refuse("--summary goes with neither --csv nor --mime", "");
    if ((options->is_one_system || options->excluded_count > 0) && !options->is_walk)
        refuse("--one-file-system and --exclude want -r", "");
    if (options->files0 && has_paths)
        refuse("-0 and --files0-from go with no PATH", "");
}

void read_words(int argc, char **argv, struct options *options) {
    int word;
    options->excluded = allocated(calloc((size_t)argc, sizeof *options->excluded));
    options->is_colored = is_colored("auto");
    opterr = 0;
    while ((word = getopt_long(argc, argv, ":0bhr", words, NULL)) >= 0)
        take_word(options, word, argv);
    bool has_paths = optind < argc;
    check(options, has_paths);
    if (!has_paths && !options->files0 && !options->is_list && isatty(STDIN_FILENO)) {
        fputs(short_help, stderr);
        exit(FAILED);
    }
    if (options->is_summary)
        options->line.flags = (options->line.flags | INFER_LABEL_NO_NAME) & ~(uint32_t)INFER_LABEL_WHY;
    options->line.flags |= INFER_LABEL_SIZE;
    /* A terminal gets each line at once, and no thread waits for a further name meanwhile. */
    options->is_terminal = isatty(STDOUT_FILENO) && !options->is_summary;
    if (options->is_terminal)
        options->threads = 1;
}
