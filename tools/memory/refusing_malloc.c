/* Loaded before the C library. Counts the requests for memory, and writes their number to the file that REFUSE_COUNT
   names and the octets of the greatest one to the file that REFUSE_LARGEST names.

   Where REFUSE_OUTCOMES names a file, the process forks at each request, or where REFUSE_UP_TO and REFUSE_BEHIND are
   numbers, at those up to the one and those behind the other, counting from 1. The child is refused this request, and no
   other, and runs to its end. The parent waits for it, writes a line `REQUEST STATUS|OUTPUT|TOLD` to the file (the
   status as a shell says it, and what the child printed and said on standard error, a space for each line feed), and
   goes on with the request granted. */
#define _GNU_SOURCE
#include <errno.h>
#include <fcntl.h>
#include <signal.h>
#include <stdio.h>
#include <stdlib.h>
#include <string.h>
#include <sys/mman.h>
#include <sys/prctl.h>
#include <sys/wait.h>
#include <unistd.h>

enum { SECONDS_OF_A_CHILD = 20, OCTETS_OF_A_STREAM = 1024, NOT_WAITED_FOR = 255 };

extern void *__libc_malloc(size_t size);
extern void *__libc_realloc(void *block, size_t size);

static unsigned long requests;
static unsigned long largest;
static int outcomes = -1;
static unsigned long up_to;
static unsigned long behind;
static int is_child;
/* Whether what asks for memory is this file itself. */
static int is_at_work;

static int open_to_write(const char *variable)
{
    const char *name = getenv(variable);
    return name ? open(name, O_WRONLY | O_CREAT | O_TRUNC | O_CLOEXEC, 0600) : -1;
}

static unsigned long number_of(const char *variable)
{
    const char *text = getenv(variable);
    return text ? strtoul(text, NULL, 10) : 0;
}

__attribute__((constructor)) static void begin(void)
{
    requests = 0;
    largest = 0;
    up_to = number_of("REFUSE_UP_TO");
    behind = number_of("REFUSE_BEHIND");
    outcomes = open_to_write("REFUSE_OUTCOMES");
}

static void write_number(const char *variable, unsigned long number)
{
    int file = open_to_write(variable);
    if (file >= 0) {
        dprintf(file, "%lu\n", number);
        close(file);
    }
}

__attribute__((destructor)) static void end(void)
{
    if (is_child)
        return;
    is_at_work = 1;
    write_number("REFUSE_COUNT", requests);
    write_number("REFUSE_LARGEST", largest);
}

/* What a stream holds, on one line, less the line feed at its end. */
static void read_stream(int stream, char *text)
{
    ssize_t length = pread(stream, text, OCTETS_OF_A_STREAM, 0);
    text[length < 0 ? 0 : length] = '\0';
    if (length > 0 && text[length - 1] == '\n')
        text[length - 1] = '\0';
    for (; *text; text++)
        if (*text == '\n')
            *text = ' ';
}

static int status_of(pid_t child)
{
    int status = 0;
    pid_t waited;
    do
        waited = waitpid(child, &status, 0);
    while (waited < 0 && errno == EINTR);
    if (waited != child)
        return NOT_WAITED_FOR;
    return WIFEXITED(status) ? WEXITSTATUS(status) : 128 + WTERMSIG(status);
}

/* What the child does behind the fork, before its request is refused. */
static void begin_child(int output, int told)
{
    is_child = 1;
    dup2(output, STDOUT_FILENO);
    dup2(told, STDERR_FILENO);
    prctl(PR_SET_DUMPABLE, 0);
    alarm(SECONDS_OF_A_CHILD);
}

static void write_outcome(pid_t child, int output, int told)
{
    char printed[OCTETS_OF_A_STREAM + 1];
    char said[OCTETS_OF_A_STREAM + 1];
    int status = child < 0 ? NOT_WAITED_FOR : status_of(child);
    read_stream(output, printed);
    read_stream(told, said);
    dprintf(outcomes, "%lu %d|%s|%s\n", requests, status, printed, said);
}

/* Whether this process is the child that is refused the request. The child reads the input from the same place on, so
   the parent goes back to it. */
static int is_child_of_fork(void)
{
    int before = errno;
    is_at_work = 1;
    off_t place = lseek(STDIN_FILENO, 0, SEEK_CUR);
    int output = memfd_create("output", MFD_CLOEXEC);
    int told = memfd_create("told", MFD_CLOEXEC);
    pid_t child = fork();
    if (child == 0) {
        begin_child(output, told);
        return 1;
    }
    write_outcome(child, output, told);
    close(output);
    close(told);
    if (place >= 0)
        lseek(STDIN_FILENO, place, SEEK_SET);
    is_at_work = 0;
    errno = before;
    return 0;
}

static int is_refused(size_t size)
{
    if (is_child || is_at_work)
        return 0;
    requests++;
    if (size > largest)
        largest = size;
    return outcomes >= 0 && (requests <= up_to || requests > behind) && is_child_of_fork();
}

void *malloc(size_t size)
{
    return is_refused(size) ? NULL : __libc_malloc(size);
}

void *realloc(void *block, size_t size)
{
    return is_refused(size) ? NULL : __libc_realloc(block, size);
}
