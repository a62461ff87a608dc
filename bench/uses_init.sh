#!/bin/busybox sh
# The first process of the machines that bench/uses.py starts, on a root that is an export and can't be written: what
# the machine is for stands in $use, and the server's address in $server. What it says begins with `uses: `.
export PATH=/sbin:/bin:/usr/bin HOME=/run
for word in $(cat /proc/cmdline); do
    case $word in use=* | server=* | guest=*) eval "$word" ;; esac
done
mount -t tmpfs tmpfs /run
mkdir -p /run/rpcbind /run/nfs/sm /run/nfs/sm.bak
ifconfig lo 127.0.0.1 up
hostname "$guest"
name=$guest
say() { echo "uses: $name: $*"; }
fail() { say "failed: $*"; poweroff -f; }

diskless() {
    grep ' / ' /proc/mounts | tail -n 1 | grep -q ' nfs ' || fail "the root is no export"
    touch /new 2> /dev/null && fail "the root can be written"
    say "booted from $(grep ' / ' /proc/mounts | tail -n 1 | cut -d ' ' -f 1)"
}

# Each builder has an object folder of its own, and reads what all share.
farm() {
    mount.linux -t nfs -o vers=3,proto=tcp,nconnect=4,nocto,actimeo=30,nolock "$server:/farm" /mnt || fail "mount"
    mkdir -p "/mnt/out/$name" && cd "/mnt/out/$name" || fail "a folder of its own"
    make -s -j 4 -f /mnt/src/Makefile > /run/log 2>&1 || fail "make: $(tail -n 3 /run/log)"
    [ "$(./program)" = 210 ] || fail "the program"
    [ -z "$(make -s -f /mnt/src/Makefile)" ] || fail "all is made once more"
    say "built $(md5sum < program | cut -c 1-32)"
}

# Two machines count in one file, and one reads what the other wrote and closed.
homes() {
    rpcbind
    rpc.statd -L -P /run/nfs
    sleep 1
    mount.linux -t nfs -o vers=3,proto=tcp,lock "$server:/home" /mnt || fail "mount"
    for _ in $(seq 20); do
        flock /mnt/lock sh -c 'echo $(($(cat /mnt/count) + 1)) > /mnt/count' || fail "flock"
    done
    echo "$name was here" > "/mnt/done.$name"
    until [ "$(ls /mnt/done.* | wc -l)" = 2 ]; do sleep 1; done
    say "counted to $(cat /mnt/count), $(cat /mnt/done.* | wc -l) files"
    umount.linux /mnt || fail "umount"
}

diskless
for each in $(echo "$use" | tr , ' '); do "$each"; done
say "the end"
poweroff -f
