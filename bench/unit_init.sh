#!/bin/sh
# The first process of the machine that bench/unit.py starts: its network, the units of contrib/ with the program and
# lockd, a target with these alone, and systemd.
export PATH=/usr/local/sbin:/usr/local/bin:/usr/sbin:/usr/bin:/sbin:/bin
mount -t proc proc /proc
mount -t sysfs sys /sys
for word in $(cat /proc/cmdline); do
    case $word in g_*=*) eval "${word%%=*}='${word#*=}'" ;; esac
done
mount -t tmpfs run /run
for place in etc usr/local/bin usr/local/sbin; do
    mkdir -p "/run/copies/$place"
done
cp -a /etc/. /run/copies/etc
cp -a "$g_folder/unit/etc/." /run/copies/etc
cp "$g_folder/unit/nfsd" /run/copies/usr/local/bin
cp "$g_folder/unit/lockd" /run/copies/usr/local/sbin
cp "$g_folder/guest_agent.py" /run/copies
for place in etc usr/local/bin usr/local/sbin; do
    mount --bind "/run/copies/$place" "/$place"
done
for place in tmp var/tmp var/lib/nfs; do
    mount -t tmpfs tmp "/$place"
done
mount -t hostfs -o "$g_state" state /mnt
hostname "$g_name"
ip link set lo up
ip addr add "$g_address/24" dev eth0
ip link set eth0 up
exec /lib/systemd/systemd --unit=try.target --log-target=journal
