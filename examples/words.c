/* Counts the words of a text, and prints them by how often they stand there. It uses the C library: printf, malloc, qsort, strtok. */
#include <stdio.h>
#include <stdlib.h>
#include <string.h>

struct word {
    const char *text;
    int count;
};

static const char text[] =
    "a bit in a cycle is needed where the output or the end of the program depends on it and a bit that nothing needs is harmless";

static int by_count(const void *left, const void *right)
{
    const struct word *a = left, *b = right;
    return a->count != b->count ? b->count - a->count : strcmp(a->text, b->text);
}

int main(void)
{
    char *copy = malloc(sizeof text);
    struct word *words = malloc(32 * sizeof *words);
    int found = 0;
    if (copy == NULL || words == NULL)
        return 1;
    memcpy(copy, text, sizeof text);
    for (char *next = strtok(copy, " "); next != NULL; next = strtok(NULL, " ")) {
        int k = 0;
        while (k < found && strcmp(words[k].text, next) != 0)
            k++;
        if (k == found)
            words[found++] = (struct word){next, 0};
        words[k].count++;
    }
    qsort(words, found, sizeof *words, by_count);
    for (int k = 0; k < 5; k++)
        printf("%d %s\n", words[k].count, words[k].text);
    free(words);
    free(copy);
    return 0;
}
