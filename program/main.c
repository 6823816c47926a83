/* infer_label: what each file is that it is given. */
#include "program.h"
#include <getopt.h>
#include <locale.h>
#include <signal.h>
#include <stdlib.h>
#include <unistd.h>

/* As many threads as there are processors, and not more than serve. */
static unsigned usual_threads(void) {
    long count = sysconf(_SC_NPROCESSORS_ONLN);
    return count < 1 ? 1 : count > 8 ? 8 : (unsigned)count;
}

int main(int argc, char **argv) {
    static struct options options = {.front = 8192, .input_name = "-"};
    options.threads = usual_threads();
    setlocale(LC_ALL, "");
    /* A reader that is gone is a failed write. */
    signal(SIGPIPE, SIG_IGN);
    read_words(argc, argv, &options);
    if (options.is_list) {
        list_types();
        return end_output() ? ALL_KNOWN : FAILED;
    }
    prepare_columns(&options, argv + optind);
    enum status status = run(&options, argv + optind);
    free(options.excluded);
    free(options.types.bytes);
    return status;
}
