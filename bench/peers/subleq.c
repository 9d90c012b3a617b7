/* A plain interpreter of SUBLEQ, to compare with: cells as one array. Usage: subleq FILE STEPS. */
#include <inttypes.h>
#include <stdint.h>
#include <stdio.h>
#include <stdlib.h>

enum { CELLS = (1 << 24) + (1 << 22) };

int main(int argc, char **argv) {
    if (argc != 3) return 2;
    FILE *file = fopen(argv[1], "rb");
    if (!file) return 5;
    int64_t *cell = calloc(CELLS, sizeof *cell);
    uint64_t count = 0;
    while (fscanf(file, "%" SCNd64, &cell[count]) == 1) count++;
    uint64_t limit = strtoull(argv[2], NULL, 10), done = 0;
    int64_t p = 0;
    while (p >= 0 && done < limit) {
        int64_t a = cell[p], b = cell[p + 1], c = cell[p + 2];
        done++;
        if (a == -1) {
            int byte = getchar_unlocked();
            cell[b] = byte < 0 ? 0 : byte;
            p += 3;
        } else if (b == -1) {
            putchar_unlocked((int)(cell[a] & 255));
            p += 3;
        } else {
            cell[b] -= cell[a];
            p = cell[b] <= 0 ? c : p + 3;
        }
    }
    fflush(stdout);
    return p >= 0 ? 3 : 0;
}
