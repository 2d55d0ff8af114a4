#!/bin/sh
# What the machine of linux_client.sh does: it mounts the export of 10.0.2.2, which is the server's host, and works in it. A command stands
# after the status that it has to give.
export PATH=/bin
mount -t proc proc /proc
mount -t sysfs sys /sys
mount -t devtmpfs dev /dev
exec >/dev/ttyS0 2>&1
ifconfig lo 127.0.0.1 up
while read -r module; do insmod "/lib/modules/$module" || echo "insmod $module failed"; done </order
ifconfig eth0 10.0.2.15 netmask 255.255.255.0 up
echo "Linux $(uname -r)"
bad=0
want() {
    status=$1
    shift
    echo "+ $*"
    "$@"
    got=$?
    [ $got = "$status" ] || { echo "status $got, not $status"; bad=1; }
}
port=$(sed -n 's/.*nfsport=\([0-9]*\).*/\1/p' /proc/cmdline)
export=$(sed -n 's/.*export=\([^ ]*\).*/\1/p' /proc/cmdline)
host=addr=10.0.2.2,mountaddr=10.0.2.2,timeo=50,retrans=2,soft
options=vers=3,proto=tcp,port=$port,mountproto=tcp,mountport=$port
want 0 mount -i -t nfs -o "$options,nolock,$host" "10.0.2.2:$export" /mnt/t
grep /mnt/t /proc/mounts
cd /mnt/t || bad=1
want 0 ls -la
want 0 df /mnt/t
want 0 mkdir here
cd here || bad=1
echo from-the-machine >a
want 0 cat a
want 0 ln -s a s
want 0 readlink s
want 0 cat s
want 0 ln a hard
want 0 ls -li
head -c 300000 /dev/urandom >z
want 0 cp z y
want 0 cmp z y
want 0 dd if=/dev/urandom of=big bs=65536 count=32 conv=fsync
want 0 cp big /big
want 0 cmp big /big
want 0 mv y yy
want 0 chmod 600 yy
want 0 truncate -s 5 yy
want 0 stat yy
for i in $(seq 100 199); do : >f"$i"; done
want 0 sh -c '[ $(ls | wc -l) = 106 ]'
want 1 mkdir f100
(exec 3<a; rm a; cat <&3)
want 0 sh -c '[ $(ls | wc -l) = 105 ]'
want 0 rm -r /mnt/t/here
want 0 sh -c '[ $(ls /mnt/t | wc -l) = 0 ]'
cd /
want 0 umount /mnt/t
echo "without nolock the mount is refused, since there is no lock manager"
want 255 mount -i -t nfs -o "$options,retrans=1,$host" "10.0.2.2:$export" /mnt/t
[ $bad = 0 ] && echo "all as expected"
poweroff -f
