/* Copies a file line by line, with one write call for each line: the least that a
   program does which hands each line to the kernel before it takes the next. */
#include <fcntl.h>
#include <stdio.h>
#include <stdlib.h>
#include <unistd.h>

int main(int argc, char **argv)
{
    if (argc != 3)
        return 2;
    FILE *in = fopen(argv[1], "r");
    int out = open(argv[2], O_WRONLY | O_CREAT | O_APPEND, 0644);
    if (!in || out < 0)
        return 1;
    char *line = NULL;
    size_t room = 0;
    ssize_t length;
    while ((length = getline(&line, &room, in)) > 0)
        if (write(out, line, length) != length)
            return 1;
    return 0;
}
