"""Builds projects of three files with nothing but the sanitizer's flag, and records them: by CMake, with
ctest, by make, and by a script like a configure's."""
import glob
import os
import re

import room
from room import RECORD, run

FILES = {
    'store.h': '''#ifdef __cplusplus
extern "C"
#endif
void add(int count);
#ifdef __cplusplus
extern "C"
#endif
int look(void);
''',
    'store.c': '''#include "store.h"
#include <pthread.h>
static pthread_mutex_t mutex = PTHREAD_MUTEX_INITIALIZER;
static int kept;
volatile int in_library;
void add(int count)
{
    in_library = count;
    pthread_mutex_lock(&mutex);
    kept += count;
    pthread_mutex_unlock(&mutex);
}
int look(void)
{
    pthread_mutex_lock(&mutex);
    int seen = kept;
    pthread_mutex_unlock(&mutex);
    return seen;
}
''',
    'main.cpp': '''#include "store.h"
#include <cstdio>
#include <thread>
int main()
{
    std::thread first([] { add(1); }), second([] { add(2); });
    first.join();
    second.join();
    std::printf("%d\\n", look());
    return look() == 3 ? 0 : 1;
}
''',
    'check.cpp': '''#include "store.h"
#include <thread>
int main()
{
    std::thread first([] { look(); });
    first.join();
    add(3);
    return look() == 3 ? 0 : 1;
}
''',
    'CMakeLists.txt': '''cmake_minimum_required(VERSION 3.10)
project(orders C CXX)
find_package(Threads REQUIRED)
add_library(store SHARED store.c)
target_link_libraries(store Threads::Threads)
add_executable(orders main.cpp)
target_link_libraries(orders store)
add_executable(check_orders check.cpp)
target_link_libraries(check_orders store)
enable_testing()
add_test(NAME orders COMMAND orders)
add_test(NAME check_orders COMMAND check_orders)
''',
    'Makefile': '''CFLAGS = -O2
CXXFLAGS = $(CFLAGS)
all: orders check_orders
libstore.so: store.o
\t$(CC) $(CFLAGS) -shared store.o -o $@ $(LDFLAGS) -pthread
store.o: store.c store.h
\t$(CC) $(CFLAGS) -fPIC -c store.c
%.o: %.cpp store.h
\t$(CXX) $(CXXFLAGS) -c $<
orders: main.o libstore.so
\t$(CXX) $(CXXFLAGS) main.o -o $@ -L. -lstore -Wl,-rpath,$(CURDIR) $(LDFLAGS) -pthread
check_orders: check.o libstore.so
\t$(CXX) $(CXXFLAGS) check.o -o $@ -L. -lstore -Wl,-rpath,$(CURDIR) $(LDFLAGS) -pthread
''',
}


def is_right(shown, what, folder, app, libraries):
    """Records the program, and looks for the one race, in the shared library."""
    done = run([*RECORD, '-o', 'trace.txt', app], cwd=folder)
    trace = os.path.join(folder, 'trace.txt')
    refused, report = shown.judge(trace) if os.path.exists(trace) else ('no trace', [])
    tables = {os.path.basename(path): room.symbols(path) for path in (app, *libraries)}
    names = room.variables(report, tables) if report else set()
    is_so = done.returncode == 0 and names == {'in_library'} and done.stdout == '3\n'
    shown.tell(what, is_so, (done.returncode, done.stderr, refused, report[:3]))


def fill(folder):
    for name, text in FILES.items():
        room.write(os.path.join(folder, name), text)


def ways():
    """How a build is asked for: its name, the tools that it takes, its variables and the flags."""
    flags = '-fsanitize=thread -g -O1'
    for name, (c, plus) in room.COMPILERS.items():
        own = flags if name == 'gcc' else flags + ' -shared-libsan'
        yield f'{name} with the flag', (c, plus), {'CC': c, 'CXX': plus}, own
        wrappers = {'CC': f'{room.RECORDER}/cc', 'CXX': f'{room.RECORDER}/c++'}
        yield f'{name} by recorder/cc and c++', (c, plus), dict(wrappers, WCP_CC=c, WCP_CXX=plus), '-g -O1'


def show_cmake(shown, what, env, flags):
    folder = shown.folder('cmake, ' + what)
    fill(folder)
    build = os.path.join(folder, 'build')
    done = run(['cmake', '-B', build, f'-DCMAKE_C_FLAGS={flags}', f'-DCMAKE_CXX_FLAGS={flags}'], cwd=folder,
               env=env)
    done = run(['cmake', '--build', build], cwd=folder, env=env) if done.returncode == 0 else done
    if not shown.tell(f'CMake, {what}: builds', done.returncode == 0, (done.stdout + done.stderr)[-500:]):
        return
    app = os.path.join(build, 'orders')
    is_right(shown, f'CMake, {what}: its race', folder, app, [os.path.join(build, 'libstore.so')])
    done = run([*RECORD, '-o', 'suite.txt', 'ctest'], cwd=build)
    found = [path for path in glob.glob(os.path.join(build, 'suite.txt*')) if not path.endswith('.info')]
    reports = [shown.judge(path) for path in found]
    races = sorted(len(report) > 1 for _, report in reports)
    is_so = done.returncode == 0 and races == [False, True] and not any(refused for refused, _ in reports)
    shown.tell(f'CMake, {what}: ctest', is_so, (done.returncode, done.stderr, reports))


def show_make(shown, what, env, flags):
    folder = shown.folder('make, ' + what)
    fill(folder)
    compilers = [f'{name}={env[name]}' for name in ('CC', 'CXX')]
    done = run(['make', *compilers, f'CFLAGS={flags}'], cwd=folder, env=env)
    if shown.tell(f'make, {what}: builds', done.returncode == 0, (done.stdout + done.stderr)[-500:]):
        app = os.path.join(folder, 'orders')
        is_right(shown, f'make, {what}: its race', folder, app, [os.path.join(folder, 'libstore.so')])


CONFIGURE = '''set -e
echo 'int main(void) { return 0; }' > conftest.c
$CC $CFLAGS -v > conftest.log 2>&1 || true
$CC $CFLAGS -c conftest.c
$CC $CFLAGS conftest.o -o conftest $LDFLAGS
./conftest
$CC $CFLAGS -E conftest.c > /dev/null
$CC --version > /dev/null
$CC $CFLAGS -shared -fPIC conftest.c -o conftest.so
'''


def show_configure(shown, what, env, flags):
    """What a configure asks of a compiler."""
    folder = shown.folder('configure, ' + what)
    done = run(['sh', '-c', CONFIGURE], cwd=folder, env=dict(env, CFLAGS=flags))
    shown.tell(f'configure, {what}', done.returncode == 0, done.stderr[-500:])


def show(shown):
    for what, tools, variables, flags in ways():
        env = dict(os.environ, **variables)
        folder = shown.folder('tried ' + re.sub(r'\W+', '_', what))
        room.write(os.path.join(folder, 'tried.c'), 'int main(void) { return 0; }\n')
        words = [*variables['CC'].split(), *flags.split(), 'tried.c', '-o', 'tried']
        if not room.has(*tools) or run(words, cwd=folder, env=env).returncode:
            shown.skip(f'projects: {what}')
            continue
        if 'recorder' in what:
            show_configure(shown, what, env, flags)
        show_make(shown, what, env, flags)
        if room.has('cmake', 'ctest'):
            show_cmake(shown, what, env, flags)
        else:
            shown.skip(f'CMake, {what}')
