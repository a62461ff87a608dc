#!/bin/sh
# The first process of a machine that guests.py starts: its network, NFS, and the status monitor with what that kept.
export PATH=/usr/local/sbin:/usr/local/bin:/usr/sbin:/usr/bin:/sbin:/bin
mount -t proc proc /proc
mount -t sysfs sys /sys
for word in $(cat /proc/cmdline); do
    case $word in g_*=*) eval "${word%%=*}='${word#*=}'" ;; esac
done
mount -t tmpfs run /run
mount -t tmpfs mnt /mnt
mkdir -p /run/rpcbind /run/lock
mount -t hostfs -o "$g_state" state /var/lib/nfs
chown statd /var/lib/nfs /var/lib/nfs/sm /var/lib/nfs/sm.bak
hostname "$g_name"
ip link set lo up
ip addr add "$g_address/24" dev eth0
ip link set eth0 up
modprobe -d "$g_folder" nfsv3
rpcbind
rpc.statd
exec python3 "$g_folder/guest_agent.py"
