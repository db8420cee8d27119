"""`./wcp --install FOLDER`: what is installed is complete, and its parts find each other."""
import os
import shutil

import room


def show(shown):
    if not room.has('make', 'cc', 'nm', 'addr2line'):
        shown.skip('installing (make, cc, nm or addr2line is not there)')
        return
    for name, beside in (('bin', '..'), ('tools', '.')):
        show_folder(shown, name, beside)


def show_folder(shown, name, beside):
    place = shown.folder(f'installed in {name}')
    folder = os.path.join(place, name)
    os.mkdir(folder)
    copy = os.path.join(place, 'copy')
    os.makedirs(os.path.join(copy, 'crates/wcp/out'))
    os.mkdir(os.path.join(copy, 'crates/wcp/src'))
    for path in ('wcp', 'crates.txt'):
        shutil.copy(os.path.join(room.TOP, path), copy)
    for path in ('recorder', 'docs'):
        shutil.copytree(os.path.join(room.TOP, path), os.path.join(copy, path), symlinks=True)
    shutil.copy(shown.program, os.path.join(copy, 'crates/wcp/out/wcp'))
    for _ in range(2):
        done = room.run([os.path.join(copy, 'wcp'), '--install', folder])
        shown.tell(f'--install {name}', done.returncode == 0, done)
    shutil.rmtree(copy)
    man = os.path.join(folder, beside, 'share/man/man1/wcp.1')
    shown.tell(f'--install {name}: the man page', os.path.isfile(man))
    work = os.path.join(place, 'work')
    shutil.copytree(os.path.join(room.RECORDER, 'explain_tests'), work)
    env = dict(os.environ, PATH=f'{folder}:{os.environ["PATH"]}')
    for words, status, said in (
            ('wcp --version', 0, 'wcp'), ('wcp-cc -g -O1 -w -pthread hidden.c -o app', 0, ''),
            ('wcp-c++ -g -O1 -w -pthread inlined.cpp -o other', 0, ''), ('wcp-record -o trace ./app', 0, ''),
            ('wcp-explain trace', 1, 'hidden by the schedule'),
            ('wcp-test ./app', 1, 'hidden by the schedule'), ('wcp-test ./other', 1, 'Account::credit')):
        done = room.run(words.split(), cwd=work, env=env)
        shown.tell(f'{words}, installed in {name}', done.returncode == status and said in done.stdout, done)
