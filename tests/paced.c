/* The pace of a serial line: passes standard input on to standard output, a byte every 521 microseconds, as 19200 baud with ten bits for
 * each byte does. No headers, as in pty.c. */
long read(int fd, void *bytes, unsigned long count);
long write(int fd, const void *bytes, unsigned long count);
int usleep(unsigned microseconds);

int main(void)
{
    char byte;
    while (read(0, &byte, 1) == 1) {
        usleep(521);
        if (write(1, &byte, 1) != 1)
            return 1;
    }
    return 0;
}
