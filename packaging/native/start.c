// Runs before the program's `main`, which the linker renames (`--wrap=main`): keeps the arguments, and blocks the signals that tell `serve` to end. `serve`
// looks for those itself (`tells_to_stop` of crates/tox_serve), and ends with its totals. All threads have the mask, since none is started before.
#include <nss.h>
#include <signal.h>
#include <stdbool.h>
#include <stddef.h>
#include <string.h>
#include <unistd.h>

#include "arguments.h"

int __real_main(int count, char **words, char **environment);
int __wrap_main(int count, char **words, char **environment);

// The signals of `tells_to_stop`.
static const int ENDING_SIGNALS[] = {SIGHUP, SIGINT, SIGTERM};

// Whether the first word that isn't `--explain` is `serve`. Any other command ends by the signals as programs do.
static bool is_serve(char **words) {
    while (*words && strcmp(*words, "--explain") == 0)
        words++;
    return *words && strcmp(*words, "serve") == 0;
}

// A signal that is ignored, as SIGHUP under nohup, stays so: blocked it would wait, and end `serve`.
static bool is_ignored(int signal) {
    struct sigaction action;
    return sigaction(signal, NULL, &action) == 0 && action.sa_handler == SIG_IGN;
}

static void block_ending_signals(void) {
    sigset_t blocked;
    sigemptyset(&blocked);
    for (size_t i = 0; i < sizeof ENDING_SIGNALS / sizeof *ENDING_SIGNALS; i++)
        if (!is_ignored(ENDING_SIGNALS[i]))
            sigaddset(&blocked, ENDING_SIGNALS[i]);
    sigprocmask(SIG_BLOCK, &blocked, NULL);
}

int __wrap_main(int count, char **words, char **environment) {
    keep_arguments(count, words);
    // Else the C library loads what /etc/nsswitch.conf names, which is made for the system's own one.
    __nss_configure_lookup("hosts", "files dns");
    if (count > 0 && is_serve(words + 1) && access("/proc/self/status", R_OK) == 0)
        block_ending_signals();
    return __real_main(count, words, environment);
}
