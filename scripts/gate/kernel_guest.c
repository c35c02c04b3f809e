/* The first process of the virtual machine of kernel_stacks.py: makes devices of the kernel's device mapper by its ioctls, as
   dmsetup does, writes to them and reads them.

   It loads the modules /modules/0, /modules/1, .., takes commands from the second disk, one a line, and puts its answers on the
   third:

   device NAME MINOR FLAG COUNT, and COUNT lines of a table  ->  refused ERRNO, or made SECTORS BLOCK COUNT and the table that the
                                                                 kernel prints; BLOCK is the logical block in sectors
   write MINOR FIRST COUNT BYTE                              ->  written, or failed ERRNO
   read MINOR MOST      ->  of at most MOST sectors, by turns `bytes COUNT` and these sectors, and `failed COUNT`; then end
   remove               ->  removed: all devices are gone
   end                  ->  end, and the machine is switched off */
#define _GNU_SOURCE
#include <errno.h>
#include <fcntl.h>
#include <linux/dm-ioctl.h>
#include <linux/fs.h>
#include <linux/module.h>
#include <stdio.h>
#include <stdlib.h>
#include <string.h>
#include <sys/ioctl.h>
#include <sys/mount.h>
#include <sys/reboot.h>
#include <sys/stat.h>
#include <sys/syscall.h>
#include <unistd.h>

enum { SECTOR = 512, LONGEST_LINE = 1 << 16, MOST_OF_A_REQUEST = 1 << 20, MOST_AT_ONCE = 64 };

static FILE *commands, *answers;
static int control;
static _Alignas(8) char request[MOST_OF_A_REQUEST];
static _Alignas(4096) char sectors[4096 * SECTOR];

static void load_modules(void)
{
	for (int number = 0;; number++) {
		char path[32];
		snprintf(path, sizeof path, "/modules/%d", number);
		int file = open(path, O_RDONLY);
		if (file < 0)
			return;
		if (syscall(SYS_finit_module, file, "", 0) && errno != EEXIST)
			printf("module %d: %s\n", number, strerror(errno));
		close(file);
	}
}

/* An ioctl on the device of this name, with what follows the header in `request`; 0, or the error. */
static int ask(unsigned long command, const char *name, unsigned minor, unsigned flags, unsigned count)
{
	struct dm_ioctl *header = (struct dm_ioctl *)request;
	memset(header, 0, sizeof *header);
	header->version[0] = DM_VERSION_MAJOR;
	header->data_size = sizeof request;
	header->data_start = sizeof *header;
	header->target_count = count;
	header->flags = flags;
	header->dev = (minor & 0xff) | (unsigned long long)(minor & ~0xffu) << 12;
	strncpy(header->name, name, sizeof header->name - 1);
	return ioctl(control, command, header) ? errno : 0;
}

/* Reads the lines of a table into `request`, in the form of the ioctl; 0, or the error. */
static int read_table(int count)
{
	char line[LONGEST_LINE], *at = request + sizeof(struct dm_ioctl);
	int wrong = 0;
	for (int number = 0; number < count; number++) {
		struct dm_target_spec *target = (struct dm_target_spec *)at;
		unsigned long long start, length;
		int words = 0;
		if (!fgets(line, sizeof line, commands))
			return EPROTO;
		line[strcspn(line, "\n")] = 0;
		memset(target, 0, sizeof *target);
		if (sscanf(line, "%llu %llu %15s %n", &start, &length, target->target_type, &words) < 3 || !words)
			wrong = EINVAL;
		if (at + sizeof *target + strlen(line + words) + 8 > request + sizeof request)
			wrong = E2BIG;
		if (wrong)
			continue;
		target->sector_start = start;
		target->length = length;
		strcpy(at + sizeof *target, line + words);
		target->next = (sizeof *target + strlen(line + words) + 8) & ~7u;
		at += target->next;
	}
	return wrong;
}

static int open_device(unsigned minor, int flags)
{
	char path[32];
	snprintf(path, sizeof path, "/dev/dm-%u", minor);
	return open(path, flags);
}

static void answer_table(const char *name, unsigned minor)
{
	unsigned long long bytes = 0;
	int block = 0, device = open_device(minor, O_RDONLY);
	ioctl(device, BLKGETSIZE64, &bytes);
	ioctl(device, BLKSSZGET, &block);
	close(device);
	ask(DM_TABLE_STATUS, name, 0, DM_STATUS_TABLE_FLAG, 0);
	const struct dm_ioctl *header = (struct dm_ioctl *)request;
	const char *first = request + header->data_start, *at = first;
	fprintf(answers, "made %llu %d %u\n", bytes / SECTOR, block / SECTOR, header->target_count);
	for (unsigned number = 0; number < header->target_count; number++) {
		const struct dm_target_spec *target = (const struct dm_target_spec *)at;
		fprintf(answers, "%llu %llu %s %s\n", target->sector_start, target->length, target->target_type, at + sizeof *target);
		at = first + target->next;
	}
}

static void make_device(const char *name, unsigned minor, int is_read_only, int count)
{
	unsigned flag = is_read_only ? DM_READONLY_FLAG : 0;
	int wrong = ask(DM_DEV_CREATE, name, minor, flag | DM_PERSISTENT_DEV_FLAG, 0);
	int is_created = !wrong, unread = read_table(count);
	wrong = wrong ? wrong : unread;
	if (!wrong)
		wrong = ask(DM_TABLE_LOAD, name, 0, flag, count);
	if (!wrong)
		wrong = ask(DM_DEV_SUSPEND, name, 0, 0, 0);
	if (!wrong)
		return answer_table(name, minor);
	if (is_created)
		ask(DM_DEV_REMOVE, name, 0, 0, 0);
	fprintf(answers, "refused %d\n", wrong);
}

/* Whole logical blocks go past the page cache. Of others the kernel writes what they are a part of. */
static int write_sectors(unsigned minor, unsigned long long first, size_t count, int byte)
{
	int block = SECTOR, device = open_device(minor, O_RDWR), wrong = 0;
	if (device < 0 || count * SECTOR > sizeof sectors)
		return device < 0 ? errno : E2BIG;
	ioctl(device, BLKSSZGET, &block);
	if ((first | count) * SECTOR % block == 0)
		fcntl(device, F_SETFL, O_DIRECT);
	memset(sectors, byte, count * SECTOR);
	if (pwrite(device, sectors, count * SECTOR, first * SECTOR) != (ssize_t)(count * SECTOR) || fsync(device))
		wrong = errno ? errno : EIO;
	close(device);
	return wrong;
}

/* Reads many blocks at once, and again one by one where that fails. */
static void read_sectors(unsigned minor, unsigned long long most)
{
	unsigned long long bytes = 0;
	int block = SECTOR, device = open_device(minor, O_RDONLY | O_DIRECT);
	ioctl(device, BLKGETSIZE64, &bytes);
	ioctl(device, BLKSSZGET, &block);
	if (bytes > most * SECTOR)
		bytes = most * SECTOR;
	for (unsigned long long at = 0, wide_from = 0; device >= 0 && at < bytes;) {
		size_t size = at < wide_from ? (size_t)block : (size_t)MOST_AT_ONCE * SECTOR;
		if (size > bytes - at)
			size = bytes - at;
		if (pread(device, sectors, size, at) == (ssize_t)size) {
			fprintf(answers, "bytes %zu\n", size / SECTOR);
			fwrite(sectors, 1, size, answers);
		} else if (size > (size_t)block) {
			wide_from = at + size;
			continue;
		} else {
			fprintf(answers, "failed %zu\n", size / SECTOR);
		}
		at += size;
	}
	close(device);
	fprintf(answers, "end\n");
}

static void answer(const char *line)
{
	char name[256] = "", flag[8] = "";
	unsigned minor;
	unsigned long long first, count;
	int byte;
	if (sscanf(line, "device %255s %u %7s %d", name, &minor, flag, &byte) == 4) {
		make_device(name, minor, !strcmp(flag, "ro"), byte);
	} else if (sscanf(line, "write %u %llu %llu %d", &minor, &first, &count, &byte) == 4) {
		errno = 0;
		int wrong = write_sectors(minor, first, count, byte);
		if (wrong)
			fprintf(answers, "failed %d\n", wrong);
		else
			fprintf(answers, "written\n");
	} else if (sscanf(line, "read %u %llu", &minor, &count) == 2) {
		read_sectors(minor, count);
	} else if (!strcmp(line, "remove\n")) {
		ask(DM_REMOVE_ALL, "", 0, 0, 0);
		fprintf(answers, "removed\n");
		fflush(answers);
		fsync(fileno(answers));
	} else {
		fprintf(answers, "no command: %s", line);
	}
}

int main(void)
{
	static char line[LONGEST_LINE];
	mount("devtmpfs", "/dev", "devtmpfs", 0, "");
	load_modules();
	control = open("/dev/mapper/control", O_RDWR);
	commands = fopen("/dev/vdb", "r");
	answers = fopen("/dev/vdc", "w");
	if (control < 0 || !commands || !answers)
		printf("no device mapper, or no disks\n");
	else
		while (fgets(line, sizeof line, commands) && strcmp(line, "end\n"))
			answer(line);
	if (answers) {
		fprintf(answers, "end\n");
		fflush(answers);
		fsync(fileno(answers));
	}
	sync();
	reboot(RB_POWER_OFF);
}
