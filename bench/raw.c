/* The limit of the measurements: what any program has to do that answers such a script. It parses the lines, copies the
 * bytes to and from a memory or an image, and writes the answers down in the form of geomrun, all at the end. There is
 * no mesh, no log, no history and no check, and a right script is taken for granted.
 *
 * It knows `ram`, `disk`, `open`, `close`, `read`, `write`, `delete`, `flush`, `sync` and windows (`nop`) over a whole
 * provider, all through the handle that was opened last. Behind the answers it prints no mesh.
 */
#define _GNU_SOURCE
#include <fcntl.h>
#include <stdio.h>
#include <stdlib.h>
#include <string.h>
#include <unistd.h>

#define DISKS 16
#define REQUEST 65536

struct disk {
	char name[64];
	char *bytes; /* NULL for an image */
	int file;
};

struct text {
	char *bytes;
	size_t size, room;
};

static struct disk disks[DISKS], *opened;
static int count;
static struct text out;

static void fail(const char *what)
{
	fprintf(stderr, "raw: %s\n", what);
	exit(1);
}

/* Makes room for so many bytes behind the text. */
static char *need(struct text *text, size_t more)
{
	if (text->room - text->size < more) {
		text->room = (text->room + more) * 2;
		text->bytes = realloc(text->bytes, text->room);
		if (!text->bytes)
			fail("out of memory");
	}
	return text->bytes + text->size;
}

static void read_all(struct text *text)
{
	ssize_t got;
	do {
		got = read(STDIN_FILENO, need(text, REQUEST), REQUEST);
		if (got < 0)
			fail("read fault");
		text->size += got;
	} while (got);
	need(text, 1)[0] = '\n';
	text->size++;
}

static void write_all(const char *bytes, size_t size)
{
	while (size) {
		ssize_t took = write(STDOUT_FILENO, bytes, size);
		if (took <= 0)
			fail("write fault");
		bytes += took;
		size -= took;
	}
}

/* Passes over a word and what is behind it, and says where it began. */
static char *word(char **at)
{
	char *begin = *at, *end = begin;
	while (*end != ' ' && *end != '\n')
		end++;
	*at = end + (*end == ' ');
	return begin;
}

static size_t number(char **at)
{
	size_t n = 0;
	for (; **at >= '0' && **at <= '9'; ++*at)
		n = 10 * n + (**at - '0');
	*at += **at == ' ';
	return n;
}

static char *put_number(char *to, size_t n)
{
	char digits[24], *at = digits + sizeof digits;
	do {
		*--at = '0' + n % 10;
		n /= 10;
	} while (n);
	memcpy(to, at, digits + sizeof digits - at);
	return to + (digits + sizeof digits - at);
}

static void put_ok(size_t line)
{
	char *to = put_number(need(&out, 64), line);
	memcpy(to, " ok", 3);
	out.size = to + 3 - out.bytes;
}

static void put_end(void)
{
	*need(&out, 1) = '\n';
	out.size++;
}

/* Where the run of equal bytes ends that begins here; eight at a time where it is long. */
static size_t end_of_run(const unsigned char *bytes, size_t at, size_t size)
{
	unsigned long long eight, all = 0x0101010101010101ULL * bytes[at];
	size_t end = at + 1;
	if (end < size && bytes[end] != bytes[at])
		return end;
	for (; end + sizeof eight <= size; end += sizeof eight) {
		memcpy(&eight, bytes + end, sizeof eight);
		if (eight != all)
			break;
	}
	while (end < size && bytes[end] == bytes[at])
		end++;
	return end;
}

/* Runs of equal bytes. */
static void put_runs(const unsigned char *bytes, size_t size)
{
	static const char digits[] = "0123456789abcdef";
	char *to = need(&out, 12 * size);
	for (size_t at = 0, end; at < size; at = end) {
		end = end_of_run(bytes, at, size);
		*to++ = ' ';
		*to++ = digits[bytes[at] >> 4];
		*to++ = digits[bytes[at] & 15];
		*to++ = '*';
		to = put_number(to, end - at);
	}
	out.size = to - out.bytes;
}

static int digit(char c)
{
	return c <= '9' ? c - '0' : c - 'a' + 10;
}

/* The bytes that runs stand for. */
static size_t take_runs(char *at, char *bytes)
{
	size_t size = 0;
	while (*at != '\n') {
		int byte = digit(at[0]) << 4 | digit(at[1]);
		at += 3;
		size_t times = number(&at);
		if (size + times > REQUEST)
			fail("too many bytes");
		memset(bytes + size, byte, times);
		size += times;
	}
	return size;
}

static void from_disk(char *bytes, size_t at, size_t size)
{
	if (opened->bytes)
		memcpy(bytes, opened->bytes + at, size);
	else if (pread(opened->file, bytes, size, at) != (ssize_t)size)
		fail("an image can't be read");
}

static void to_disk(const char *bytes, size_t at, size_t size)
{
	if (opened->bytes)
		memcpy(opened->bytes + at, bytes, size);
	else if (pwrite(opened->file, bytes, size, at) != (ssize_t)size)
		fail("an image can't be written");
}

/* A line `ram NAME SECTOR SECTORS` or `disk NAME SECTOR`, behind its first word. */
static void add_disk(int is_ram, char *at)
{
	if (count == DISKS)
		fail("too many disks");
	struct disk *disk = &disks[count++];
	char *name = word(&at), path[80];
	size_t sector;
	sscanf(name, "%63s", disk->name);
	sector = number(&at);
	snprintf(path, sizeof path, "%s.img", disk->name);
	if (is_ram)
		disk->bytes = calloc(number(&at), sector);
	else
		disk->file = open(path, O_RDWR | O_CLOEXEC);
	if (is_ram ? !disk->bytes : disk->file < 0)
		fail("a disk can't be had");
}

/* The disk of a provider, which is the disk's name and `.nop` for each window. */
static struct disk *find(const char *provider)
{
	for (int k = 0; k < count; k++) {
		size_t size = strlen(disks[k].name);
		if (!memcmp(provider, disks[k].name, size) && (provider[size] == ' ' || provider[size] == '.'))
			return &disks[k];
	}
	fail("no such disk");
	return NULL;
}

/* A line of an actor, behind its name. */
static void command(size_t line, char *at)
{
	static char bytes[REQUEST];
	char *what = word(&at);
	size_t from, size;
	word(&at);
	if (!memcmp(what, "open ", 5))
		opened = find(at);
	put_ok(line);
	if (!memcmp(what, "read ", 5)) {
		from = number(&at);
		size = number(&at);
		from_disk(bytes, from, size);
		put_runs((unsigned char *)bytes, size);
	} else if (!memcmp(what, "write ", 6)) {
		from = number(&at);
		to_disk(bytes, from, take_runs(at, bytes));
	} else if (!memcmp(what, "delete ", 7)) {
		from = number(&at);
		size = number(&at);
		memset(bytes, 0, size);
		to_disk(bytes, from, size);
	} else if (!memcmp(what, "flush ", 6) && !opened->bytes) {
		fdatasync(opened->file);
	}
	put_end();
}

int main(void)
{
	struct text script = { 0 };
	size_t line = 0;
	read_all(&script);
	for (char *at = script.bytes, *end; at < script.bytes + script.size; at = end + 1) {
		end = memchr(at, '\n', script.bytes + script.size - at);
		line++;
		if (at == end || *at == '#')
			continue;
		char *rest = at, *first = word(&rest);
		if (!memcmp(first, "ram ", 4) || !memcmp(first, "disk ", 5))
			add_disk(*first == 'r', rest);
		else if (memcmp(first, "actor ", 6))
			command(line, rest);
	}
	for (int k = 0; k < count; k++)
		if (!disks[k].bytes)
			fsync(disks[k].file);
	write_all(out.bytes, out.size);
	return 0;
}
