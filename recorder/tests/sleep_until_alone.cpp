// In the place of the C library's: a sleep lasts until the other threads have ended, however long that takes.
#include <dirent.h>
#include <time.h>
#include <unistd.h>

static int count_threads()
{
    DIR *folder = opendir("/proc/self/task");
    int count = -2; // `.` and `..`
    while (folder && readdir(folder))
        count++;
    if (folder)
        closedir(folder);
    return count;
}

int nanosleep(const struct timespec *, struct timespec *)
{
    while (count_threads() > 1)
        usleep(1000);
    return 0;
}
