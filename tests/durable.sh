#!/bin/sh
# The recipe of include/cop.h, "Keeping the state", as examples/durable.c follows it: killed at every point it loses
# nothing (durable.c says what is looked at). Then the example changed so that it follows the recipe no more: each of
# these must be found wrong, and in the way said with it.
# Usage: tests/durable.sh [SAMPLES], runs with two kills; 1000 where not said. Needs rt, gcc and Python 3.
set -eu
cd "$(dirname "$0")/.."
sh examples/durable.sh > /dev/null
folder=$(mktemp -d)
trap 'rm -rf "$folder"' EXIT
to=target/examples
wraps=
for f in open pwrite fsync rename fflush cop_invoke cop_receive cop_serve; do wraps=$wraps,--wrap=$f; done

# build NAME SOURCE: the example with what kills it
build() {
    gcc -std=c99 -O2 -Wall -Wextra -Werror -Iexamples -Dmain=example_main -c "$2" -o "$to/$1.o"
    gcc -std=gnu11 -O2 -Wall -Wextra -Werror tests/durable.c "$to/$1.o" target/staticlib/libcop_c.a "-Wl$wraps" \
        -o "$to/$1"
}

# wrong NAME HOW [OLD NEW]...: with NEW for each OLD the example is found wrong, and HOW is said of it
wrong() {
    name=durable-$1 how=$2
    shift 2
    python3 - "$to/$name.c" "$@" << 'END'
import sys
text = open("examples/durable.c").read()
for old, new in zip(sys.argv[2::2], sys.argv[3::2]):
    assert text.count(old) == 1, old
    text = text.replace(old, new)
open(sys.argv[1], "w").write(text)
END
    build "$name" "$to/$name.c"
    if "$to/$name" "$folder" 0 > "$to/$name.out"; then echo "$name: not found wrong"; exit 1; fi
    if ! grep -q "$how" "$to/$name.out"; then echo "$name: wrong otherwise:"; cat "$to/$name.out"; exit 1; fi
    echo "$name: $(grep '^killed' "$to/$name.out")"
}

build durable-killed examples/durable.c
"$to/durable-killed" "$folder" "${1:-1000}"
python3 tests/durable_kills.py "$to/durable"

# the outcome is not kept: only the run that made the call shows it
wrong outcome_not_kept 'a call was never shown' \
    '        show(&c);' '        static int made; if (made++ || c.calls == 0) show(&c);'

# bytes that the line has go to its end once more, if a crash has left them in the record
wrong sent_again 'refused 3[256]' \
    'write_all(fd, bytes, n, at);' 'uint64_t end = (uint64_t)lseek(fd, 0, SEEK_END);
    write_all(fd, bytes, n, end < at + n ? at : end);' \
    '        show(&c);' '        show(&c);
        if (c.n) c.at += c.n, c.n = 0, save(name("client", i), &c, sizeof c);' \
    '    } while (server_step' '        int any = 0;
        for (int to = 0; to < CLIENTS; to++) any |= s.n[to] > 0, s.at[to] += s.n[to], s.n[to] = 0;
        if (any) save("server", &s, sizeof s);
    } while (server_step'

# shown, sent, by a client or the server, before the record is durable
wrong shown_early 'shown before its record was durable' \
    'client_step(&c) && save' 'client_step(&c) && (show(&c), 1) && save'
wrong sent_early 'on a line before their record' \
    'client_step(&c) && save' 'client_step(&c) && (put(name("up", i), c.at, c.bytes, c.n), 1) && save'
wrong server_sent_early 'on a line before their record' \
    '&still) && save' '&still) && (put("down-1", s.at[0], s.bytes, s.n[0]), 1) && save'

# half a message is taken for one
wrong half_taken 'ended with 1' 'return n < length ? 0 : length;' 'return n < length ? n : length;'

# the offset taken is kept apart from the state
wrong offset_apart 'client . ended with 1' \
    'save(name("up", i), "", 0);' 'save(name("up", i), "", 0); save(name("taken", i), &c.taken, sizeof c.taken);' \
    '&c, sizeof c);
    do {' '&c, sizeof c); load(name("taken", i), &c.taken, sizeof c.taken);
    do {' \
    '&& save(name("client", i), &c, sizeof c));' \
    '&& save(name("client", i), &c, sizeof c) && save(name("taken", i), &c.taken, sizeof c.taken));'

# how many requests were taken is kept apart from the state
wrong requests_apart 'ended with\|requests were lost or made twice' \
    'save(name("up", i), "", 0);' 'save(name("up", i), "", 0); save(name("asked", i), &c.asked, sizeof c.asked);' \
    '&c, sizeof c);
    do {' '&c, sizeof c); load(name("asked", i), &c.asked, sizeof c.asked);
    do {' \
    '&& save(name("client", i), &c, sizeof c));' \
    '&& save(name("client", i), &c, sizeof c) && save(name("asked", i), &c.asked, sizeof c.asked));'

# not synced: a record, its folder, a line, a record from which a start goes on
wrong record_not_synced 'before .* record was durable' 'write_all(fd, bytes, n, 0);
    sync_close(fd);' 'write_all(fd, bytes, n, 0);
    close(fd);'
wrong folder_not_synced 'before .* record was durable' '    sync_close(open(".", O_RDONLY));
    return 1;' '    return 1;'
wrong line_not_synced '(power cut)' 'write_all(fd, bytes, n, at);
    sync_close(fd);' 'write_all(fd, bytes, n, at);
    close(fd);'
wrong start_not_synced 'before .* record was durable' '    sync_close(fd);
    sync_close(open(".", O_RDONLY));' '    close(fd);'
echo "durable: ok"
