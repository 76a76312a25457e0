// Makes the writes and syncs of 2,000 appends to a log and nothing else: length, record and closed gate; sync;
// the gate; sync; the answer to standard output. What the program does beside them is the difference.
#include <fcntl.h>
#include <stdio.h>
#include <stdlib.h>
#include <string.h>
#include <unistd.h>

enum { REQUESTS = 2000, PAYLOAD = 44 };

static void must(int ok, const char *what) {
    if (!ok) {
        perror(what);
        exit(1);
    }
}

int main(int argc, char **argv) {
    must(argc == 2, "usage: append DIRECTORY");
    must(chdir(argv[1]) == 0, "chdir");
    int log = open("log.00000001", O_RDWR | O_CREAT | O_TRUNC, 0644);
    must(log >= 0, "open");
    must(pwrite(log, "\0", 1, 0) == 1, "pwrite");
    must(fsync(log) == 0, "fsync");
    unsigned char behind[4 + PAYLOAD + 1];
    memset(behind, 'x', sizeof behind);
    behind[0] = behind[1] = behind[2] = 0;
    behind[3] = PAYLOAD;
    behind[sizeof behind - 1] = 0;
    const char *answer = "HTTP/1.1 201 Created\r\nContent-Type: application/json\r\nContent-Length: 16\r\n\r\n{\"name\":\"d1000\"}";
    off_t gate = 0;
    for (int i = 0; i < REQUESTS; i++) {
        must(pwrite(log, behind, sizeof behind, gate + 1) == sizeof behind, "pwrite");
        must(fsync(log) == 0, "fsync");
        must(pwrite(log, "\1", 1, gate) == 1, "pwrite");
        must(fsync(log) == 0, "fsync");
        gate += sizeof behind;
        must(write(1, answer, strlen(answer)) > 0, "write");
    }
    return 0;
}
