// Sorts names by two orders: structs, strings, and a function that is handed another by its pointer.
#include <stdio.h>
#include <string.h>

#define COUNT 8

struct Planet {
    char *name;
    int moons;
};

struct Planet planets[COUNT] = {
    {"Mercury", 0}, {"Venus", 0}, {"Earth", 1}, {"Mars", 2}, {"Jupiter", 95}, {"Saturn", 146}, {"Uranus", 28}, {"Neptune", 16},
};
struct Planet *sorted[COUNT];

int by_name(struct Planet *a, struct Planet *b)
{
    return strcmp(a->name, b->name);
}

int by_moons(struct Planet *a, struct Planet *b)
{
    return b->moons - a->moons;
}

void sort(struct Planet **first, int count, int (*order)(struct Planet *, struct Planet *))
{
    int i, j;
    for (i = 1; i < count; i++) {
        struct Planet *moved = first[i];
        for (j = i; j > 0 && order(first[j - 1], moved) > 0; j--)
            first[j] = first[j - 1];
        first[j] = moved;
    }
}

void show(void)
{
    int i;
    for (i = 0; i < COUNT; i++)
        printf("%s %d\n", sorted[i]->name, sorted[i]->moons);
}

int main(void)
{
    int i;
    for (i = 0; i < COUNT; i++)
        sorted[i] = &planets[i];
    sort(sorted, COUNT, by_name);
    show();
    putchar('\n');
    sort(sorted, COUNT, by_moons);
    show();
    return 0;
}
