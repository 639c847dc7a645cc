#!/bin/sh
# A primary and two followers on one machine, as lines that can be copied one by one. Run it at the top of the repository; it takes a few
# seconds, and what it made is gone at its end. It needs dig, socat, sqlite3, and the ports 5300 to 5303 of the loopback address.
set -eu
here=$(mktemp -d)
primary='' second='' third=''
trap 'kill $primary $second $third 2>/dev/null || :; rm -r "$here"' EXIT

# A server runs until its standard input ends. This pipe, which it opens for reading and writing, has no end; kill stops it.
mkfifo "$here/input"

# ---- The primary: it has a zone of eight rows, and takes an update.

serve_primary() {
    ./dns serve example.com. --zone=examples/example.com.zone --journal="$here/primary.journal" --udp=127.0.0.1:5300 --tcp=127.0.0.1:5300 --update \
        0<> "$here/input" > /dev/null &
    primary=$!
    until dig @127.0.0.1 -p 5300 +tries=1 +time=1 example.com SOA > /dev/null; do sleep 0.1; done
}
serve_primary
./dns-nsupdate --server=127.0.0.1:5300 --id=1 < examples/add_new.script # 0001 0

# ---- The first feed. While a server runs it holds its journal, and who would feed it is told `keeper fault`: so it is stopped, for as long
# as a copy takes, and serves again. The copy is fed at leisure. SQLite's own copy has in one file what stands in two.

./dns-follow feed example.com. 1 --journal="$here/primary.journal" 2> /dev/null || : # keeper fault
copy_primary() {
    kill "$primary"
    wait "$primary" 2> /dev/null || :
    rm -f "$here/copy.journal"
    sqlite3 "$here/primary.journal" ".backup '$here/copy.journal'"
    serve_primary
}
copy_primary

# By a pipe. Between two machines it is: dns-follow feed .. | ssh second dns-follow follow ..
./dns-follow feed example.com. 1 --journal="$here/copy.journal" | ./dns-follow follow example.com. --journal="$here/second.journal" # length 9 serial 8

# By a plain relay over TCP, which nobody guards: within a network of your own alone.
socat -u TCP-LISTEN:5303,bind=127.0.0.1,reuseaddr STDOUT | ./dns-follow follow example.com. --journal="$here/third.journal" & # length 9 serial 8
./dns-follow feed example.com. 1 --journal="$here/copy.journal" | socat -u STDIN TCP:127.0.0.1:5303,retry=50,interval=0.1
wait $!

# ---- Servers on the followers' journals. They take no updates: without --update whoever sends one is refused.

serve_second() {
    ./dns serve example.com. --journal="$here/second.journal" --udp=127.0.0.1:5301 --tcp=127.0.0.1:5301 0<> "$here/input" > /dev/null &
    second=$!
}
serve_third() {
    ./dns serve example.com. --journal="$here/third.journal" --udp=127.0.0.1:5302 --tcp=127.0.0.1:5302 0<> "$here/input" > /dev/null &
    third=$!
}
ask_all() {
    for port in 5300 5301 5302; do
        until dig @127.0.0.1 -p "$port" +tries=1 +time=1 example.com SOA > /dev/null; do sleep 0.1; done
        echo "$port: serial $(dig @127.0.0.1 -p "$port" +short example.com SOA | cut -d ' ' -f 3), new $(dig @127.0.0.1 -p "$port" +short new.example.com A | xargs)"
    done
}
serve_second
serve_third
ask_all # 530x: serial 8, new 192.0.2.55

# ---- Rows come. The primary goes on meanwhile; a follower's server is stopped for as long as the new rows are taken in. Row 10 is the one
# behind `length 9`; from row 1 on would do as well.

printf 'zone example.com.\nadd new.example.com. 60 A 192.0.2.56\nsend\n' | ./dns-nsupdate --server=127.0.0.1:5300 --id=2 # 0002 0
copy_primary
kill "$second"
wait "$second" 2> /dev/null || :
./dns-follow feed example.com. 10 --journal="$here/copy.journal" | ./dns-follow follow example.com. --journal="$here/second.journal" # length 10 serial 9
serve_second
ask_all # the third is behind: serial 8

kill "$third"
wait "$third" 2> /dev/null || :
./dns-follow feed example.com. 1 --journal="$here/copy.journal" | ./dns-follow follow example.com. --journal="$here/third.journal" # length 10 serial 9
serve_third
ask_all # 530x: serial 9
