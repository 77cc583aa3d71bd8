/* Reads a blob, a list of typed attributes of OpenWrt's message bus, into a tree, and writes a tree as a blob: a plain
 * program beside which `blob_load` is measured. Usage: blob_tree read|write TIMES < BLOB
 *
 * `read` reads the blob so many times and prints how many attributes stand in it at the top; `write` reads it once,
 * writes it so many times and prints how many bytes that takes. Each tree and each text is given back. */
#include <stdint.h>
#include <stdio.h>
#include <stdlib.h>
#include <string.h>

enum { MOST_LEVELS = 32 };
enum kind { NOTHING, ARRAY, TABLE, STRING, INT64, INT32, INT16, INT8 };

struct text {
	unsigned char *bytes;
	size_t length;
};

struct attrs {
	struct attr *items;
	size_t length, room;
};

struct attr {
	struct text name;
	enum kind kind;
	union {
		struct attrs inner;
		struct text text;
		int64_t number;
	} value;
};

static size_t padded(size_t size)
{
	return (size + 3) / 4 * 4;
}

static uint64_t number_at(const unsigned char *bytes, size_t length)
{
	uint64_t number = 0;
	for (size_t i = 0; i < length; i++)
		number = number << 8 | bytes[i];
	return number;
}

static int copy_text(struct text *text, const unsigned char *bytes, size_t length)
{
	text->bytes = malloc(length ? length : 1);
	if (!text->bytes)
		return 0;
	memcpy(text->bytes, bytes, length);
	text->length = length;
	return 1;
}

static void give_back(struct attrs *attrs)
{
	for (size_t i = 0; i < attrs->length; i++) {
		struct attr *attr = &attrs->items[i];
		free(attr->name.bytes);
		if (attr->kind == ARRAY || attr->kind == TABLE)
			give_back(&attr->value.inner);
		else if (attr->kind == STRING)
			free(attr->value.text.bytes);
	}
	free(attrs->items);
}

static struct attr *next_attr(struct attrs *attrs)
{
	if (attrs->length == attrs->room) {
		size_t room = attrs->room ? 2 * attrs->room : 4;
		struct attr *items = realloc(attrs->items, room * sizeof *items);
		if (!items)
			return NULL;
		attrs->items = items;
		attrs->room = room;
	}
	return &attrs->items[attrs->length];
}

static int read_attrs(struct attrs *attrs, const unsigned char *bytes, size_t length, int levels);

/* whether the first zero byte is the last byte */
static int is_terminated(const unsigned char *bytes, size_t length)
{
	const unsigned char *nul = length ? memchr(bytes, 0, length) : NULL;
	return nul && nul == bytes + length - 1;
}

static int read_number(struct attr *attr, const unsigned char *bytes, size_t length, size_t wanted)
{
	if (length != wanted)
		return 0;
	uint64_t number = number_at(bytes, length);
	attr->value.number = length == 8 ? (int64_t)number : length == 4 ? (int32_t)number : length == 2 ? (int16_t)number : (int8_t)number;
	return 1;
}

static int read_value(struct attr *attr, const unsigned char *bytes, size_t length, int levels)
{
	switch (attr->kind) {
	case NOTHING:
		return length == 0;
	case ARRAY:
	case TABLE:
		return levels > 0 && read_attrs(&attr->value.inner, bytes, length, levels - 1);
	case STRING:
		return is_terminated(bytes, length) && copy_text(&attr->value.text, bytes, length - 1);
	case INT64:
		return read_number(attr, bytes, length, 8);
	case INT32:
		return read_number(attr, bytes, length, 4);
	case INT16:
		return read_number(attr, bytes, length, 2);
	default:
		return read_number(attr, bytes, length, 1);
	}
}

static int read_attrs(struct attrs *attrs, const unsigned char *bytes, size_t length, int levels)
{
	memset(attrs, 0, sizeof *attrs);
	while (length) {
		if (length < 4)
			goto fault;
		uint32_t word = number_at(bytes, 4);
		size_t size = word & 0xffffff, kind = word >> 24 & 127;
		if (length < padded(size) || size < 4 || !(word >> 31) || kind > INT8 || length < 6)
			goto fault;
		size_t name = number_at(bytes + 4, 2), place = 4 + padded(name + 3);
		if (size < place || !is_terminated(bytes + 6, name + 1))
			goto fault;
		struct attr *attr = next_attr(attrs);
		if (!attr)
			goto fault;
		attr->kind = kind;
		if (!read_value(attr, bytes + place, size - place, levels))
			goto fault;
		if (!copy_text(&attr->name, bytes + 6, name))
			goto fault;
		attrs->length++;
		bytes += padded(size);
		length -= padded(size);
	}
	return 1;
fault:
	return 0;
}

struct out {
	unsigned char *bytes;
	size_t length, room;
};

static unsigned char *more(struct out *out, size_t length)
{
	if (out->room - out->length < length) {
		size_t room = out->room * 2 > out->length + length ? out->room * 2 : out->length + length;
		unsigned char *bytes = realloc(out->bytes, room);
		if (!bytes)
			exit(1);
		out->bytes = bytes;
		out->room = room;
	}
	unsigned char *place = out->bytes + out->length;
	out->length += length;
	return place;
}

static void write_bytes(struct out *out, const unsigned char *bytes, size_t length)
{
	memcpy(more(out, length), bytes, length);
}

static void pad(struct out *out, size_t size)
{
	size_t length = padded(size) - size;
	memset(more(out, length), 0, length);
}

static void put_number(unsigned char *bytes, uint64_t number, size_t length)
{
	while (length) {
		bytes[--length] = number;
		number >>= 8;
	}
}

static void write_attrs(struct out *out, const struct attrs *attrs)
{
	for (size_t i = 0; i < attrs->length; i++) {
		const struct attr *attr = &attrs->items[i];
		size_t start = out->length;
		put_number(more(out, 6) + 4, attr->name.length, 2);
		write_bytes(out, attr->name.bytes, attr->name.length);
		*more(out, 1) = 0;
		pad(out, attr->name.length + 3);
		if (attr->kind == ARRAY || attr->kind == TABLE) {
			write_attrs(out, &attr->value.inner);
		} else if (attr->kind == STRING) {
			write_bytes(out, attr->value.text.bytes, attr->value.text.length);
			*more(out, 1) = 0;
		} else if (attr->kind != NOTHING) {
			size_t length = (size_t)8 >> (attr->kind - INT64);
			put_number(more(out, length), attr->value.number, length);
		}
		size_t size = out->length - start;
		put_number(out->bytes + start, UINT32_C(0x80000000) | (uint32_t)attr->kind << 24 | size, 4);
		pad(out, size);
	}
}

int main(int count, char **words)
{
	static unsigned char bytes[1 << 24];
	if (count != 3)
		return 1;
	int times = atoi(words[2]), is_write = !strcmp(words[1], "write");
	size_t length = fread(bytes, 1, sizeof bytes, stdin), told = 0;
	struct attrs attrs;
	for (int i = 0; i < (is_write ? 1 : times); i++) {
		if (!read_attrs(&attrs, bytes, length, MOST_LEVELS))
			return 1;
		told = attrs.length;
		if (!is_write)
			give_back(&attrs);
	}
	for (int i = 0; is_write && i < times; i++) {
		struct out out = {0};
		write_attrs(&out, &attrs);
		told = out.length;
		free(out.bytes);
	}
	printf("%zu\n", told);
	return 0;
}
