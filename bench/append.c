/* Appends COUNT records of SIZE bytes to the file append.disk of the current folder, by the calls that a journal makes:
   the record, a sync, its first byte, a sync. The first sync is of a file that has grown, the second of one that has not. */
#include <fcntl.h>
#include <stdio.h>
#include <stdlib.h>
#include <sys/stat.h>
#include <unistd.h>

int main(int argc, char **argv)
{
    if (argc != 3)
        return 1;
    long count = atol(argv[1]), size = atol(argv[2]);
    char *record = calloc(1, size);
    unsigned char open_gate = 0xa5;
    int file = open("append.disk", O_RDWR | O_CREAT, 0666);
    if (file < 0 || !record)
        return 1;
    struct stat now;
    if (fstat(file, &now) != 0)
        return 1;
    off_t end = now.st_size;
    for (long i = 0; i < count; i++) {
        if (pwrite(file, record, size, end) != size || fsync(file) != 0)
            return 1;
        if (pwrite(file, &open_gate, 1, end) != 1 || fdatasync(file) != 0)
            return 1;
        end += size;
    }
    printf("appends %ld\n", count);
    return 0;
}
