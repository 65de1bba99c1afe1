// Appends COUNT rows to FILE, each with one write, and with a third word each on the disk before the next.
#include <fcntl.h>
#include <stdlib.h>
#include <string.h>
#include <unistd.h>

int main(int count, char **words) {
    static const char row[] =
        "2026-11-22T23:08:00.000Z,2026-11-22T23:08:27.103Z,2026-11-22T23:08:27.123Z,1,0,7,,5003,answered,,0,0,123456,ok,1\n";
    if (count < 3) return 2;
    int file = open(words[2], O_WRONLY | O_APPEND | O_CREAT, 0666);
    if (file < 0) return 1;
    for (long left = atol(words[1]); left > 0; left--) {
        if (write(file, row, strlen(row)) != (ssize_t)strlen(row)) return 1;
        if (count > 3 && fdatasync(file)) return 1;
    }
    return close(file) ? 1 : 0;
}
