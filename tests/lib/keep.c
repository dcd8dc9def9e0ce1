/* Linked into a program that `rt try` builds: as it starts, it copies its own file to KEEP_AT, so that the tests can
   run the program many times. A file that is there already stays. */
#include <fcntl.h>
#include <unistd.h>

__attribute__((constructor)) static void keep(int count, char **words)
{
    static char octets[1 << 16];
    int from = count > 0 ? open(words[0], O_RDONLY) : -1;
    int to = from < 0 ? -1 : open(KEEP_AT, O_WRONLY | O_CREAT | O_EXCL, 0700);
    ssize_t taken;

    if (to < 0)
        return;
    while ((taken = read(from, octets, sizeof octets)) > 0)
        if (write(to, octets, taken) != taken)
            _exit(99);
    close(to);
    close(from);
}
