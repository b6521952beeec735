/* hanxin: writes and reads Han Xin marks in files. */
#define _POSIX_C_SOURCE 200809L /* for SIGPIPE, open */
#include "options.h"

#include <fcntl.h>
#include <signal.h>
#include <stdlib.h>
#include <string.h>

static const char HELP[] =
    "usage: hanxin VERB [OPTIONS] ..\n"
    "\n"
    "  write     a mark for a serial, as a picture\n"
    "  read      marks from pictures\n"
    "  batch     a picture for each line of a list of serials\n"
    "  overlay   a picture of what is damaged in a mark that can be read\n"
    "  demo      a mark that is made, scratched and read\n"
    "\n"
    "hanxin VERB --help says more of each; hanxin --version says which version this is. Exit status: 0 read or written, 1 refused,\n"
    "2 wrong usage, or input or output failed.\n";

static const struct {
    Verb verb;
    int (*act)(Wish *wish);
} VERBS[] = {{VERB_WRITE, verb_write},
             {VERB_READ, verb_read},
             {VERB_BATCH, verb_batch},
             {VERB_OVERLAY, verb_overlay},
             {VERB_DEMO, verb_demo}};

static int act(const char *name, char **arguments)
{
    size_t i;
    if (strcmp(name, "-h") == 0 || strcmp(name, "--help") == 0) {
        fputs(HELP, stdout);
        return DONE;
    }
    if (strcmp(name, "--version") == 0) {
        printf("hanxin %s; PNG is %sbuilt in\n", hx_library_version(), png_is_there() ? "" : "not ");
        return DONE;
    }
    for (i = 0; i < sizeof VERBS / sizeof *VERBS; i++)
        if (strcmp(name, verb_name(VERBS[i].verb)) == 0) {
            Wish wish = wish_of(VERBS[i].verb, arguments);
            return VERBS[i].act(&wish);
        }
    fail("there is no verb '%s': write, read, batch, overlay or demo (hanxin --help)", name);
    return FAILED;
}

/* Where standard input, output or error is closed, the next file that is opened takes its place, and what is printed would go there.
 * So each of them is opened, in a way in which it cannot be used: that fails as it should. */
static void take_places(void)
{
    int place;
    for (place = 0; place < 3; place++)
        if (fcntl(place, F_GETFD) == -1 && open("/dev/null", place == 0 ? O_WRONLY : O_RDONLY) == -1)
            _Exit(FAILED);
}

int main(int count, char **arguments)
{
    int status;
    take_places();
    signal(SIGPIPE, SIG_IGN); /* so that a closed pipe is told by the exit status, as any other output that fails */
    if (count < 2) {
        fputs(HELP, stderr);
        return FAILED;
    }
    status = act(arguments[1], arguments + 2);
    finish_output();
    return status;
}
