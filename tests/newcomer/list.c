#include <stdio.h>
#include <stdlib.h>

struct node {
    int value;
    struct node *next;
};

int main(void)
{
    struct node *list = NULL, *it;
    int i, sum = 0;

    for (i = 1; i <= 10; i++) {
        it = malloc(sizeof *it);
        it->value = i;
        it->next = list;
        list = it;
    }
    for (it = list; it != NULL; it = it->next)
        sum += it->value;
    printf("%d\n", sum);
    while (list != NULL) {
        it = list->next;
        free(list);
        list = it;
    }
    return 0;
}
