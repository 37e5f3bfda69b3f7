/* Looks for patterns at each place of a text that is read first. In a pattern `?` stands for any
   character, `#` for a digit, and `*` for any characters of a line. */
#include <stdio.h>
#define LONGEST 4000

char text[LONGEST + 1];

/* Reads the text, up to the longest that is kept, and returns its length. */
int read_text(void)
{
    int length = 0;
    int c;

    while (length < LONGEST && (c = getchar()) != EOF)
        text[length++] = (char)c;
    text[length] = '\0';
    return length;
}

/* Does the pattern stand at the front of the text? */
int matches(const char *pattern, const char *at)
{
    switch (*pattern) {
    case '\0':
        return 1;
    case '?':
        return *at != '\0' && *at != '\n' && matches(pattern + 1, at + 1);
    case '#':
        return *at >= '0' && *at <= '9' && matches(pattern + 1, at + 1);
    case '*':
        if (matches(pattern + 1, at))
            return 1;
        return *at != '\0' && *at != '\n' && matches(pattern, at + 1);
    default:
        return *at == *pattern && matches(pattern + 1, at + 1);
    }
}

/* At how many places of the text does the pattern stand? */
int occurrences(const char *pattern, int length)
{
    int count = 0;
    int start;

    for (start = 0; start < length; start++)
        count += matches(pattern, text + start);
    return count;
}

int main(void)
{
    int length = read_text();

    printf("%d characters\n", length);
    printf("the: %d\n", occurrences("the", length));
    printf("##: %d\n", occurrences("##", length));
    printf("l??p: %d\n", occurrences("l??p", length));
    printf("path*work: %d\n", occurrences("path*work", length));
    return length == 0;
}
