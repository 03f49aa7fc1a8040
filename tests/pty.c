/* A serial line for a test: pty FILE PROGRAM WORDS... makes a pseudo terminal, writes its name and the number of a process that holds it
 * open to FILE, and becomes PROGRAM, whose standard input and output are the other end. The line ends when the holder is ended.
 * No headers: those of the C library are for this machine's processor, and the test runs on x86-64 everywhere. */
int posix_openpt(int flags);
int grantpt(int fd);
int unlockpt(int fd);
char *ptsname(int fd);
int open(const char *path, int flags, ...);
int close(int fd);
int dup2(int from, int to);
int fork(void);
int pause(void);
int dprintf(int fd, const char *format, ...);
int execv(const char *path, char *const words[]);

enum { read_write = 2, no_terminal = 0400, new_file = 1 | 0100 | 01000 };

int main(int count, char **words)
{
    int board, line, out, holder;
    if (count < 3)
        return 2;
    board = posix_openpt(read_write | no_terminal);
    if (board < 0 || grantpt(board) < 0 || unlockpt(board) < 0)
        return 1;
    line = open(ptsname(board), read_write | no_terminal);
    if (line < 0)
        return 1;
    holder = fork();
    if (holder < 0)
        return 1;
    if (holder == 0) {
        close(board);
        close(1);
        close(2);
        for (;;)
            pause();
    }
    out = open(words[1], new_file, 0600);
    if (out < 0 || dprintf(out, "%s %d\n", ptsname(board), holder) < 0)
        return 1;
    close(out);
    close(line);
    if (dup2(board, 0) < 0 || dup2(board, 1) < 0)
        return 1;
    close(board);
    execv(words[2], words + 2);
    return 1;
}
