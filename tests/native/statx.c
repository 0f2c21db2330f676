// Prints what statx tells of files, as the kit's std asks it. Usage: statx, in a folder with a `file`, a `folder` and a `link`.
#include <errno.h>
#include <fcntl.h>
#include <inttypes.h>
#include <stdint.h>
#include <stdio.h>
#include <sys/stat.h>
#include <unistd.h>

static void show(const char *name, int directory, const char *path, int flags) {
    struct statx found = {0};
    if (statx(directory, path, flags, STATX_BASIC_STATS, &found) != 0) {
        printf("%s: error %d\n", name, errno);
        return;
    }
    printf("%s: mask %x mode %o links %u size %" PRIu64 " blocks %" PRIu64 " of %u inode %" PRIu64 " user %u group %u", name,
           (unsigned)(found.stx_mask & STATX_BASIC_STATS), found.stx_mode, found.stx_nlink, (uint64_t)found.stx_size, (uint64_t)found.stx_blocks,
           found.stx_blksize, (uint64_t)found.stx_ino, found.stx_uid, found.stx_gid);
    printf(" device %u:%u special %u:%u times %" PRId64 ".%u %" PRId64 ".%u %" PRId64 ".%u\n", found.stx_dev_major, found.stx_dev_minor, found.stx_rdev_major,
           found.stx_rdev_minor, (int64_t)found.stx_atime.tv_sec, found.stx_atime.tv_nsec, (int64_t)found.stx_mtime.tv_sec, found.stx_mtime.tv_nsec,
           (int64_t)found.stx_ctime.tv_sec, found.stx_ctime.tv_nsec);
}

int main(void) {
    int folder = open("folder", O_RDONLY);
    show("file", AT_FDCWD, "file", 0);
    show("folder", AT_FDCWD, "folder", 0);
    show("link", AT_FDCWD, "link", AT_SYMLINK_NOFOLLOW);
    show("linked", AT_FDCWD, "link", 0);
    show("open", folder, "", AT_EMPTY_PATH);
    show("in it", folder, "../file", 0);
    show("device", AT_FDCWD, "/dev/null", 0);
    show("nothing", AT_FDCWD, "nothing", 0);
    show("below a file", AT_FDCWD, "file/file", 0);
}
