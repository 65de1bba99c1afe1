/* The loop that `geocom exec` is measured beside: it reads 256 bytes at a time and writes one fixed reply for each line.
   It reads no line and knows no procedure. */
#include <unistd.h>

static int write_whole(const char *bytes, size_t len)
{
    while (len > 0) {
        ssize_t n = write(1, bytes, len);
        if (n <= 0)
            return 0;
        bytes += n;
        len -= (size_t)n;
    }
    return 1;
}

int main(void)
{
    static const char reply[] = "%R1P,0,1:0\r\n";
    char buf[256];
    ssize_t n;

    while ((n = read(0, buf, sizeof buf)) > 0)
        for (ssize_t at = 0; at < n; at++)
            if (buf[at] == '\n' && !write_whole(reply, sizeof reply - 1))
                return 1;
    return n < 0;
}
