#!/bin/sh
# A Linux client in an emulated machine mounts what the built `nfsrdma serve` serves with `record = true`, and works in it.
#
#     sh conformance/linux_client.sh [PROGRAM [FOLDER]]
#
# It needs Debian's packages qemu-system-x86, busybox-static, cpio, kmod and xz-utils, and downloads Debian's cloud kernel into FOLDER (by default
# a temporary one) by `apt-get download`. It prints what the machine shows. Exit status: 0 if every command of linux_client_init.sh gave the
# status that stands there, 1 if not, 2 if something is missing. It takes some minutes: the machine is emulated.
set -u
here=$(cd "$(dirname "$0")" && pwd)
program=${1:-$here/../crates/nfsrdma/out/nfsrdma}
folder=${2:-$(mktemp -d)}
[ -x "$program" ] || { echo "no program at $program" >&2; exit 2; }
for tool in qemu-system-x86_64 busybox cpio depmod xz dpkg-deb; do
    command -v $tool >/dev/null || { echo "no $tool" >&2; exit 2; }
done
program=$(realpath "$program")
cd "$folder" || exit 2

# the kernel, and its modules for NFS and for the network card
if [ ! -d kernel ]; then
    package=$(apt-cache depends linux-image-cloud-amd64 | sed -n 's/.*Depends: \(linux-image-.*\)/\1/p' | head -1)
    apt-get download "$package" >/dev/null || exit 2
    dpkg-deb -x "$package"_*.deb kernel || exit 2
fi
version=$(ls kernel/lib/modules)
modules=kernel/lib/modules/$version
depmod -b kernel "$version" 2>/dev/null

# the modules in the order in which they are loaded
order() {
    for name in "$@"; do
        line=$(grep "/$name\.ko" "$modules/modules.dep" | head -1)
        [ -n "$line" ] && echo "$line" | tr -d ':' | tr ' ' '\n' | sed '1!G;h;$!d'
    done | awk '!seen[$0]++'
}

rm -rf root
mkdir -p root/bin root/lib/modules root/proc root/sys root/dev root/mnt/t
cp "$(command -v busybox)" root/bin/busybox
for tool in sh mount umount ls df mkdir cat ln readlink head wc cp cmp dd mv chmod truncate stat rm ifconfig insmod poweroff uname sed grep seq \
    sleep; do ln -sf busybox root/bin/$tool; done
order virtio_pci virtio_net nfsv3 nfs >root/order
for file in $(cat root/order); do
    case $file in
    *.xz) xz -dc "$modules/$file" >"root/lib/modules/$(basename "$file" .xz)" ;;
    *) cp "$modules/$file" root/lib/modules/ ;;
    esac
done
sed -i 's|.*/||; s|\.xz$||' root/order
cp "$here/linux_client_init.sh" root/init
chmod +x root/init
(cd root && find . | cpio -o -H newc 2>/dev/null | gzip) >initrd.gz

port=$(python3 -c 'import socket; s = socket.socket(); s.bind(("127.0.0.1", 0)); print(s.getsockname()[1])')
cat >config.toml <<END
listen = "127.0.0.1:$port"
export = "/export"
credits = 16
capacity = 1000000000000
connections = 1000
write_verifier = "0000000000000001"
record = true
END
"$program" serve config.toml &
server=$!
rm -f screen.txt
timeout 900 qemu-system-x86_64 -accel tcg,thread=multi -cpu max -smp 1 -m 512 -kernel kernel/boot/vmlinuz-"$version" -initrd initrd.gz \
    -append "console=ttyS0 edd=off nokaslr no_timer_check quiet nfsport=$port export=/export" -display none -vga none -no-reboot -monitor none \
    -serial file:screen.txt -netdev user,id=n0 -device virtio-net-pci,netdev=n0,romfile=
kill $server
tr -d '\r' <screen.txt
grep -q '^all as expected' screen.txt
