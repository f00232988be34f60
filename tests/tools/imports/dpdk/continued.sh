exec taskset -c 2-5 dpdk-testpmd \
    -l 2-5 \
    --socket-mem=2048 \
    --socket-limit=4096 \
    --single-file-segments \
    --file-prefix vhost \
    --vdev 'net_vhost0,iface=/tmp/sock0' \
    -- -i
