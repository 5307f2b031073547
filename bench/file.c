// What a file alone costs, in sectors of 512 bytes. Prints the seconds that the loop took.
//   file sync IMAGE PAGES  writes pages where the journal has them (page p in sector 8 + (p - 1) mod J), and syncs after each
//   file read IMAGE        reads every sector, one by one
#define _GNU_SOURCE
#include <fcntl.h>
#include <stdio.h>
#include <stdlib.h>
#include <string.h>
#include <sys/stat.h>
#include <time.h>
#include <unistd.h>

enum { SECTOR = 512, SNAPSHOTS = 8 };

static double now(void) {
    struct timespec t;
    clock_gettime(CLOCK_MONOTONIC, &t);
    return t.tv_sec + t.tv_nsec / 1e9;
}

static void fail(const char *what) {
    perror(what);
    exit(1);
}

static void sync_pages(int file, long sectors, long pages) {
    char page[SECTOR] = {0};
    for (long p = 1; p <= pages; p++) {
        memcpy(page, &p, sizeof p);
        off_t place = (SNAPSHOTS + (p - 1) % (sectors - SNAPSHOTS)) * (off_t)SECTOR;
        if (pwrite(file, page, SECTOR, place) != SECTOR)
            fail("pwrite");
        if (fdatasync(file))
            fail("fdatasync");
    }
}

static void read_sectors(int file, char *image, long sectors) {
    for (long i = 0; i < sectors; i++)
        if (pread(file, image + i * SECTOR, SECTOR, i * (off_t)SECTOR) != SECTOR)
            fail("pread");
}

int main(int count, char **words) {
    struct stat about;
    int syncs = count == 4 && !strcmp(words[1], "sync");
    if (!syncs && !(count == 3 && !strcmp(words[1], "read"))) {
        fprintf(stderr, "usage: file sync IMAGE PAGES, or file read IMAGE\n");
        return 1;
    }
    int file = open(words[2], syncs ? O_RDWR : O_RDONLY);
    if (file < 0 || fstat(file, &about))
        fail(words[2]);
    long sectors = about.st_size / SECTOR;
    char *image = malloc(about.st_size);
    double start = now();
    if (syncs)
        sync_pages(file, sectors, atol(words[3]));
    else
        read_sectors(file, image, sectors);
    printf("%.9f\n", now() - start);
    return 0;
}
