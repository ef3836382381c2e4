/* As many turns as its word says: each puts a number in front of a list on the heap. */
#include <stdio.h>
#include <stdlib.h>

struct item {
    long number;
    struct item *rest;
};

int main(int count, char **words) {
    struct item *list = NULL;
    for (long left = count > 1 ? atol(words[1]) : 0; left > 0; left--) {
        struct item *first = malloc(sizeof *first);
        if (first == NULL) return 1;
        first->number = left;
        first->rest = list;
        list = first;
    }
    printf("%ld\n", list == NULL ? 0 : list->number);
    return 0;
}
