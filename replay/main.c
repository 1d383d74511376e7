/*
 * tools/replay's program. The script starts the trial, and this with the trial's pipes as descriptors 3 and 4:
 *
 *   replay -d ID .. [-i INTERFACE] .. -s SETTINGS [-g] [-r] [-p PICTURE] INPUT
 *   replay -w -d ID [-i INTERFACE] INPUT
 *
 * With -n it only looks at these words, and there is no trial.
 */
#include <errno.h>
#include <fcntl.h>
#include <signal.h>
#include <string.h>
#include <unistd.h>

#include "replay.h"
#include "trial.h"

int open_input(const char *name)
{
    int fd = strcmp(name, "-") == 0 ? STDIN_FILENO : open(name, O_RDONLY);
    if (fd < 0)
        fail(2, "cannot read '%s': %s", name, strerror(errno));
    return fd;
}

static void add_id(struct call *call, const char *text)
{
    if (call->ids == NAMES_MOST)
        fail(2, "more than %d identifiers", NAMES_MOST);
    if (!id_of(text, &call->id[call->ids].id, &call->id[call->ids].extended))
        fail(2, "'%s' is no identifier: up to 1FFFFFFF in hexadecimal, as 0x123 or 0x18FF1234", text);
    call->ids++;
}

static void add_interface(struct call *call, const char *name)
{
    if (call->interfaces == NAMES_MOST)
        fail(2, "more than %d interfaces", NAMES_MOST);
    if (*name == 0 || strpbrk(name, " \t\r\n") != NULL)
        fail(2, "'%s' is no interface", name);
    call->interface[call->interfaces++] = name;
}

int main(int count, char **words)
{
    static struct call call;
    bool send = false, only_look = false;
    int option;
    signal(SIGPIPE, SIG_IGN); /* a pipe that nobody reads is an error of the write to it */
    while ((option = getopt(count, words, "d:i:s:p:grwn")) != -1)
        switch (option) {
        case 'd':
            add_id(&call, optarg);
            break;
        case 'i':
            add_interface(&call, optarg);
            break;
        case 's':
            call.settings = optarg;
            break;
        case 'p':
            call.picture = optarg;
            break;
        case 'g':
            call.settings_given = true;
            break;
        case 'r':
            call.refused_only = true;
            break;
        case 'w':
            send = true;
            break;
        case 'n':
            only_look = true;
            break;
        default:
            return 2;
        }
    if (optind + 1 != count)
        return 2;
    call.input = words[optind];
    if (only_look)
        return 0;
    return send ? send_log(&call) : replay_log(&call);
}
