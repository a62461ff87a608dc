#!/bin/sh
# What bench/linux.py has a machine run: mounts the export of the server at that address and port, and makes checks.
address=$1
nfs_port=$2

enter() {
    mount -t nfs -o vers=3,proto=tcp,port="$nfs_port",mountport="$nfs_port",mountproto=tcp,nolock "$address:/data" /mnt
}
passed=0
failed=0
check() {
    if eval "$2"; then passed=$((passed + 1)); else failed=$((failed + 1)); echo "linux: failed: $1"; fi
}

echo "linux: $(uname -r)"
check "mount" enter
cd /mnt
check "write and read" 'echo hello > a; [ "$(cat a)" = hello ]'
check "append" 'echo world >> a; [ "$(cat a | tr "\n" " ")" = "hello world " ]'
check "mkdir -p" 'mkdir -p d/e/f'
check "list" '[ "$(ls | tr "\n" " ")" = "a d " ]'
check "rename" 'mv a d/e/b && [ -f d/e/b ] && [ ! -e a ]'
check "hard link" 'ln d/e/b c && [ "$(stat -c %h c)" = 2 ]'
check "symbolic link" 'ln -s d/e/b s && [ "$(readlink s)" = d/e/b ] && [ "$(head -1 s)" = hello ]'
check "chmod" 'chmod 600 c && [ "$(stat -c %a c)" = 600 ]'
check "chown" 'chown 1000:1000 c && [ "$(stat -c %u:%g c)" = 1000:1000 ]'
check "cut" 'truncate -s 3 c && [ "$(cat c)" = hel ]'
check "grow" 'truncate -s 100 c && [ "$(stat -c %s c)" = 100 ]'
check "fifo" 'mkfifo p && [ -p p ]'
check "remove" 'rm c && [ ! -e c ] && [ -e d/e/b ]'
check "rmdir of what holds names" '! rmdir d 2> /dev/null'
check "40 MiB" 'dd if=/dev/urandom of=/run/big bs=1048576 count=40 2> /dev/null; cp /run/big big; cmp /run/big big'
check "both ends of 1 GiB" 'printf a > ends; printf z | dd of=ends bs=1 seek=1073741823 conv=notrunc 2> /dev/null;
    [ "$(stat -c %s ends)" = 1073741824 ] && [ "$(dd if=ends bs=1 skip=1073741822 2> /dev/null | tr "\0" -)" = -z ]'
check "no byte behind them" '! printf z | dd of=ends bs=1 seek=1073741824 conv=notrunc 2> /dev/null'
check "a cut in between" 'truncate -s 536870912 ends && truncate -s 1073741824 ends && [ "$(head -c 1 ends)" = a ] &&
    [ "$(dd if=ends bs=1 skip=1073741823 2> /dev/null | tr "\0" -)" = - ]'
check "200 files" 'mkdir many; for i in $(seq 200); do echo $i > many/$i; done; [ "$(ls many | wc -l)" = 200 ]'
check "each of them" 'for i in $(seq 200); do [ "$(cat many/$i)" = $i ] || break; done; [ $i = 200 ]'
check "tar" 'tar cf /run/tar many && mkdir out && tar xf /run/tar -C out && diff -r many out/many'
check "df" 'df /mnt | grep -q 1073741824'
cd /
check "umount" 'umount /mnt'
check "mount again" enter
check "what was written" 'cmp /run/big /mnt/big && [ "$(head -c 3 /mnt/d/e/b)" = hel ]'
check "rm -r" 'rm -r /mnt/many /mnt/out && [ ! -e /mnt/many ]'
check "umount again" 'umount /mnt'
echo "linux: $passed passed, $failed failed"
