/* Opens, reads and closes each file named, and does nothing with it: what a batch cannot avoid.
 *
 *     readall FILE...
 */
#include <fcntl.h>
#include <stdio.h>
#include <unistd.h>

static char text[1 << 20];

int main(int count, char **words)
{
    for (int k = 1; k < count; k++) {
        int file = open(words[k], O_RDONLY | O_CLOEXEC);
        ssize_t got;
        if (file < 0) return perror(words[k]), 1;
        while ((got = read(file, text, sizeof text)) > 0) {}
        if (got < 0) return perror(words[k]), 1;
        close(file);
    }
    return 0;
}
