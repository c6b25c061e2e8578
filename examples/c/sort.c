/* An insertion sort of records in .data, by an order that is a function: so it calls through a pointer.
   It prints the planets by their diameters in kilometres, and then by their names. The status is the number of
   comparisons that both took, 34. */
#include "write.h"

struct planet {
    const char *name;
    int diameter;
};

static struct planet planets[] = {
    { "Mercury", 4879 },   { "Venus", 12104 },   { "Earth", 12756 },  { "Mars", 6792 },
    { "Jupiter", 142984 }, { "Saturn", 120536 }, { "Uranus", 51118 }, { "Neptune", 49528 },
};

enum { COUNT = sizeof planets / sizeof planets[0] };

static int comparisons;

static int by_diameter(const struct planet *first, const struct planet *second)
{
    return first->diameter - second->diameter;
}

static int by_name(const struct planet *first, const struct planet *second)
{
    int at = 0;

    while (first->name[at] && first->name[at] == second->name[at])
        at++;
    return first->name[at] - second->name[at];
}

static void sort(int (*compare)(const struct planet *, const struct planet *))
{
    for (int sorted = 1; sorted < COUNT; sorted++) {
        struct planet taken = planets[sorted];
        int place = sorted;

        for (; place > 0; place--) {
            comparisons++;
            if (compare(&planets[place - 1], &taken) <= 0)
                break;
            planets[place] = planets[place - 1];
        }
        planets[place] = taken;
    }
}

static void show(const char *title)
{
    write_text(title);
    for (int place = 0; place < COUNT; place++) {
        write_number(planets[place].diameter, 7);
        put(' ');
        write_text(planets[place].name);
        put('\n');
    }
}

int main(void)
{
    sort(by_diameter);
    show("By diameter:\n");
    sort(by_name);
    show("By name:\n");
    return comparisons;
}
