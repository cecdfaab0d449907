/* Feeds a cluster of controllers, each frame to all others in the middle of the window, and prints what they believe.
 *
 *     cc -o feeder tools/feeders/feeder.c && ./feeder CONTROLLER SCENARIO NODES M PERIODS
 *
 * SCENARIO is a file with the scenario as one line. A bench has real links where this hands frames on. */
#define _POSIX_C_SOURCE 200809L
#include <stdio.h>
#include <stdlib.h>
#include <string.h>
#include <sys/socket.h>
#include <sys/wait.h>
#include <unistd.h>

static int to[16], status;
static FILE *from[16];
static char *said[16], *scenario; /* the last line of each node */
static size_t room[16], length;

static void start(const char *controller, int node) {
    int ends[2];
    char number[12];
    snprintf(number, sizeof number, "%d", node);
    if (socketpair(AF_UNIX, SOCK_STREAM, 0, ends)) exit(1);
    if (fork() == 0) {
        dup2(ends[1], 0);
        dup2(ends[1], 1);
        for (int other = 3; other < 40; other++) close(other); /* also the other nodes' ends */
        execl(controller, controller, number, (char *)0);
        _exit(127);
    }
    close(ends[1]);
    from[node] = fdopen(to[node] = ends[0], "r");
    dprintf(to[node], "%s", scenario);
}

static char *answer(int node) {
    if (getline(&said[node], &room[node], from[node]) > 0 && strncmp(said[node], "refused ", 8)) return said[node];
    fprintf(stderr, "node %d ended\n", node);
    exit(1);
}

int main(int argc, char **argv) {
    if (argc != 6) return 2;
    int nodes = atoi(argv[3]), slots = 2 * atoi(argv[4]) + 4, periods = atoi(argv[5]);
    FILE *file = fopen(argv[2], "r");
    if (nodes > 16 || !file || getline(&scenario, &length, file) <= 0) return 1;
    for (int node = 0; node < nodes; node++) start(argv[1], node);
    for (int period = 0; period < periods; period++) {
        for (int node = 0; node < nodes; node++) dprintf(to[node], "begin %d\n", period);
        for (int slot = 0; slot < slots; slot++) {
            for (int node = 0; node < nodes; node++) answer(node);
            for (int node = 0; node < nodes; node++) {
                for (int sender = 0; sender < nodes; sender++) /* of "say SLOT HEX\n" what is behind the last space */
                    if (sender != node) dprintf(to[node], "deliver %d 15 %s", sender, strrchr(said[sender], ' ') + 1);
                dprintf(to[node], "end\n");
            }
        }
        printf("period %d\n", period);
        for (int node = 0; node < nodes; node++) {
            answer(node); /* "period P" */
            int lines = strstr(answer(node), " cold\n") ? 1 : 4;
            for (fputs(said[node], stdout); --lines > 0;) fputs(answer(node), stdout);
        }
    }
    for (int node = 0; node < nodes; node++)
        if (shutdown(to[node], SHUT_WR) || strncmp(answer(node), "end ", 4) || wait(&status) < 0 || status) return 1;
    return 0;
}
