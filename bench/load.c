/* Clients and watchers of `regatta serve`, each a thread of its own, for bench/serve.py --native.
 *
 *     load PATH CLIENTS WATCHERS COMMANDS [FINISHERS]
 *
 * Each client sends FINISH and STRIKE of boat A by turns, in a race of its own, one line at a time. With
 * FINISHERS it strikes the first boat of its race and lets it finish last, of B1, B2, .. in turn.
 * Together they send COMMANDS lines. Each watcher asks for SHOW without a pause until the clients are
 * done. A line is printed for each thread: its kind, when it began and ended in seconds, how many
 * lines were accepted (for a watcher, how many sheets it read), and how many seconds it waited for
 * each of them. */
#include <pthread.h>
#include <stdatomic.h>
#include <stdio.h>
#include <stdlib.h>
#include <string.h>
#include <sys/socket.h>
#include <sys/un.h>
#include <time.h>
#include <unistd.h>

enum { REPLY = 128, SHEET = 1 << 20, MOST_SHOWS = 1 << 20 };

struct task {
    int number, lines, accepted, stream;
    double began, ended;
    double *waits;
};

static const char *path;
static int finishers;
static pthread_barrier_t start;
static atomic_bool done;

static double now(void) {
    struct timespec time;
    clock_gettime(CLOCK_MONOTONIC, &time);
    return time.tv_sec + time.tv_nsec / 1e9;
}

static void fail(const char *what) {
    perror(what);
    exit(1);
}

static void tell(int stream, const char *line) {
    if (send(stream, line, strlen(line), 0) < 0) fail("send");
}

/* Reads a reply that ends in `end`, and returns its length. */
static size_t hear(int stream, char *reply, size_t room, const char *end) {
    size_t long_end = strlen(end), count = 0;
    for (;;) {
        ssize_t more = recv(stream, reply + count, room - count, 0);
        if (more <= 0) fail("recv");
        count += more;
        if (count >= long_end && memcmp(reply + count - long_end, end, long_end) == 0) return count;
    }
}

static int connected(void) {
    struct sockaddr_un address = {.sun_family = AF_UNIX};
    strncpy(address.sun_path, path, sizeof address.sun_path - 1);
    int stream = socket(AF_UNIX, SOCK_STREAM, 0);
    if (stream < 0 || connect(stream, (struct sockaddr *)&address, sizeof address) < 0)
        fail("connect");
    char reply[REPLY];
    tell(stream, "RANK A\n");
    hear(stream, reply, sizeof reply, "\n");
    return stream;
}

static void quit(int stream) {
    char reply[REPLY];
    tell(stream, "QUIT\n");
    hear(stream, reply, sizeof reply, "\n");
    close(stream);
}

/* The line that a client sends as its i-th, counted from 0. */
static void write_line(char *line, size_t room, int race, int i) {
    if (finishers == 0)
        snprintf(line, room, "%s %d A\n", i % 2 ? "STRIKE" : "FINISH", race);
    else
        snprintf(line, room, "%s %d B%d\n", i % 2 ? "FINISH" : "STRIKE", race, i / 2 % finishers + 1);
}

static void *client(void *given) {
    struct task *task = given;
    char line[32], reply[REPLY];
    int stream = connected();
    pthread_barrier_wait(&start);
    double before = task->began = now();
    for (int i = 0; i < task->lines; i++) {
        write_line(line, sizeof line, task->number + 1, i);
        tell(stream, line);
        hear(stream, reply, sizeof reply, "\n");
        double after = now();
        task->waits[i] = after - before;
        task->accepted += memcmp(reply, "OK", 2) == 0;
        before = after;
    }
    task->ended = before;
    quit(stream);
    return NULL;
}

static void *watcher(void *given) {
    struct task *task = given;
    char *sheet = malloc(SHEET);
    if (sheet == NULL) fail("malloc");
    int stream = connected();
    pthread_barrier_wait(&start);
    double before = task->began = now();
    while (!atomic_load(&done) && task->lines < MOST_SHOWS) {
        tell(stream, "SHOW\n");
        hear(stream, sheet, SHEET, "\nEND\n");
        double after = now();
        task->waits[task->lines++] = after - before;
        before = after;
    }
    task->ended = before;
    task->accepted = task->lines;
    quit(stream);
    free(sheet);
    return NULL;
}

static void print(const char *kind, const struct task *task) {
    printf("%s %.9f %.9f %d", kind, task->began, task->ended, task->accepted);
    for (int i = 0; i < task->lines; i++) printf(" %.9f", task->waits[i]);
    printf("\n");
}

int main(int count, char **words) {
    if (count != 5 && count != 6) return 2;
    path = words[1];
    finishers = count == 6 ? atoi(words[5]) : 0;
    int clients = atoi(words[2]), watchers = atoi(words[3]), commands = atoi(words[4]);
    struct task *tasks = calloc(clients + watchers, sizeof *tasks);
    pthread_t *threads = calloc(clients + watchers, sizeof *threads);
    pthread_barrier_init(&start, NULL, clients + watchers);
    for (int i = 0; i < clients + watchers; i++) {
        tasks[i].number = i;
        if (i < clients) tasks[i].lines = commands / clients + (i < commands % clients);
        tasks[i].waits = calloc(i < clients ? tasks[i].lines + 1 : MOST_SHOWS, sizeof(double));
        if (pthread_create(&threads[i], NULL, i < clients ? client : watcher, &tasks[i]) != 0)
            fail("pthread_create");
    }
    for (int i = 0; i < clients; i++) pthread_join(threads[i], NULL);
    atomic_store(&done, 1);
    for (int i = clients; i < clients + watchers; i++) pthread_join(threads[i], NULL);
    for (int i = 0; i < clients + watchers; i++)
        print(i < clients ? "writer" : "watcher", &tasks[i]);
    return 0;
}
