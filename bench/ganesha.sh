#!/bin/sh
# bench/records.sh with nfs-ganesha as the other server, in turn with `nfsrdma serve`. Both stand in a network namespace of their own, with a
# portmapper, which nfs-ganesha asks for. It serves a new folder in memory (/dev/shm) by its VFS layer. Run by hand as root, at the top of the
# repository, on an idle machine, with the path of nfsrdma as for bench/records.sh. It needs Debian's packages nfs-ganesha, nfs-ganesha-vfs,
# rpcbind and iproute2. TIMES as for bench/records.sh.
set -u
[ "${1:-}" = inside ] || exec unshare --net "$0" inside "${1:-crates/nfsrdma/out/nfsrdma}"
for tool in ip rpcbind ganesha.nfsd; do
    command -v $tool >/dev/null || { echo "no $tool" >&2; exit 2; }
done
ip link set lo up
folder=$(mktemp -d /dev/shm/ganesha.XXXXXX)
mkdir -p /run/rpcbind "$folder/export"
chmod 777 "$folder/export"
cat >"$folder/config" <<END
NFS_CORE_PARAM { NFS_Port = 2049; MNT_Port = 20048; Protocols = 3; Enable_NLM = false; Enable_RQUOTA = false; Enable_UDP = false; }
EXPORT { Export_Id = 1; Path = $folder/export; Pseudo = /export; Protocols = 3; Transports = TCP; Access_Type = RW; Squash = None;
    SecType = none, sys; FSAL { Name = VFS; } }
LOG { Default_Log_Level = CRIT; }
END
rpcbind -f &
portmapper=$!
sleep 1
ganesha.nfsd -F -f "$folder/config" -L "$folder/log" -p "$folder/pid" &
server=$!
tries=0
until ss -ltn | grep -q :20048 || [ $tries = 100 ]; do
    tries=$((tries + 1))
    sleep 0.2
done
bench/records.sh "$2" 2049 "$folder/export" 20048
status=$?
kill $server $portmapper
wait
rm -r "$folder"
exit $status
