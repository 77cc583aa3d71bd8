/* Reads the standard input to its end, and then writes the lines of the file that is named, one write each: the least that a program
   must do that reads a configuration and tells each call after it was made. */
#include <fcntl.h>
#include <stdio.h>
#include <stdlib.h>
#include <string.h>
#include <unistd.h>

static char *whole(int file, size_t *length)
{
	size_t room = 65536, held = 0;
	char *bytes = malloc(room);
	for (;;) {
		if (bytes == NULL)
			exit(8);
		ssize_t got = read(file, bytes + held, room - held);
		if (got < 0)
			exit(3);
		if (got == 0)
			break;
		held += (size_t)got;
		if (held == room)
			bytes = realloc(bytes, room *= 2);
	}
	*length = held;
	return bytes;
}

int main(int count, char **words)
{
	if (count < 2)
		return 2;
	size_t read_length, length;
	char *input = whole(0, &read_length);
	int file = open(words[1], O_RDONLY);
	if (file < 0)
		return 2;
	char *at = whole(file, &length), *end = at + length;
	while (at < end) {
		char *newline = memchr(at, '\n', (size_t)(end - at));
		size_t size = newline == NULL ? (size_t)(end - at) : (size_t)(newline + 1 - at);
		if (write(1, at, size) != (ssize_t)size)
			return 4;
		at += size;
	}
	free(input);
	return 0;
}
